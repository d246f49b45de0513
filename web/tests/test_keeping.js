// Where the browser keeps nothing, or no more, the page says so as long as it is so.

import assert from "node:assert/strict";
import { CTRL, gerber } from "./support.js";
import { NO_DATABASE, WRITES, armWrite } from "./faults.js";
import { answer, onDisk, openFiles, toBoard, typeLine } from "./hands.js";
import { linesNow, rest, scriptNow, seen } from "./seen.js";
import { suite, test } from "../../tools/tests/harness.js";
import { tabs } from "./tab.js";

const open = tabs();
const PADS = gerber("X0Y0D03*", "X5000000Y0D03*", "X10000000Y0D03*");

async function type(tab, ...lines) {
  for (const line of lines) await typeLine(tab, line);
  await rest(tab);
  await toBoard(tab);
}

async function withPads(options = {}) {
  const tab = await open(options);
  await openFiles(tab, onDisk({ "pads.gtl": PADS }));
  await tab.wait("camplot.state.layers.length === 1");
  await rest(tab);
  return tab;
}

// The warning stands, in words for people, whatever is done.
async function warns(tab) {
  const look = async (what) => {
    const { kept } = await seen(tab);
    assert.match(kept, /\w+ \w+ \w+/, `nothing is said of keeping after ${what}`);
    assert.doesNotMatch(kept, /null|undefined|\[object/, what);
    return kept;
  };
  const said = await look("it happened");
  await type(tab, "move top 0 0 1000");
  await look("a line");
  await type(tab, "move top 99 0 1000");
  await look("a refused line");
  await tab.key("a", CTRL);
  await rest(tab);
  await look("a pick");
  await tab.key("ArrowUp");
  await rest(tab);
  await look("an edit by a key");
  await tab.key("z", CTRL);
  await tab.key("3");
  await tab.key("Escape");
  await rest(tab);
  await look("an undo and a tool");
  await openFiles(tab, onDisk({ "more.gbl": PADS }));
  await rest(tab);
  if ((await seen(tab)).question) await answer(tab, /^Open/);
  await rest(tab);
  await look("an opening");
  assert.equal(await tab.ask("document.getElementById('kept').getAttribute('role')"), "status");
  return said;
}

suite("nothing is said", () => {
  test("where all is kept", async () => {
    const tab = await withPads();
    await type(tab, "move top 0 0 1000", "move top 99 0 0");
    assert.equal((await seen(tab)).kept, "");
    await tab.reload();
    await rest(tab);
    assert.equal((await seen(tab)).kept, "");
    assert.equal((await linesNow(tab)).filter((line) => !line.startsWith("#")).length, 2);
  });
});

suite("a warning stays", () => {
  for (const [what, fault] of [["a write is refused", "throw"], ["a write is aborted", "abort"]]) {
    for (const write of [1, 2, 3]) {
      test(`where ${what}, the ${write}. one`, async () => {
        const tab = await withPads({ first: [WRITES] });
        await armWrite(tab, fault, write);
        await type(tab, "move top 1 0 1000", "move top 1 0 1000", "move top 1 0 1000");
        const { kept } = await seen(tab), script = await scriptNow(tab);
        if (kept) await warns(tab);
        // Where nothing is said, all of it was kept in the end.
        else assert.equal((await tab.reload(), await rest(tab), await scriptNow(tab)), script);
      });
    }
  }

  test("where the quota is full", async () => {
    const tab = await withPads({ quota: 100000 });
    // Flashes at places that cannot be packed.
    const rows = Array.from({ length: 20000 }, (_, at) => `X${at * 7919 % 100000000}Y${at * 104729 % 100000000}D03*`);
    await openFiles(tab, onDisk({ "large.gbl": gerber(...rows) }));
    await tab.wait("camplot.state.layers.length === 2");
    await rest(tab);
    await warns(tab);
  });

  test("where there is no database", async () => {
    const tab = await withPads({ first: [NO_DATABASE] });
    await warns(tab);
  });
});

// Files that a user drops on the page, or chooses, where the page is opened from the disk.

import assert from "node:assert/strict";
import { join } from "node:path";
import { EXAMPLES, gerber } from "./support.js";
import { choose, drop, onDisk } from "./hands.js";
import { linesNow, rest, seen } from "./seen.js";
import { pbm } from "../../tools/tests/pictures.js";
import { suite, test } from "../../tools/tests/harness.js";
import { tabs } from "./tab.js";

const open = tabs();
const KICAD = join(EXAMPLES, "kicad");
const ALL = ["bottom", "bottom-mask", "nonplated", "outline", "plated", "top", "top-mask", "top-silk"];
const names = async (tab) => (await seen(tab)).layers.map(({ name }) => name).sort();

async function opened(tab, count) {
  await tab.wait(`camplot.state.layers.length >= ${count}`, 60);
  await rest(tab);
  return names(tab);
}

suite("dropped on a page from the disk", () => {
  test("files", async () => {
    const tab = await open();
    await drop(tab, ["nightlight-F_Cu.gbr", "nightlight-PTH.drl"].map((name) => join(KICAD, name)));
    assert.deepEqual(await opened(tab, 2), ["plated", "top"]);
    assert.deepEqual((await linesNow(tab)).map((line) => line.split(" ").slice(0, 3).join(" ")).sort(),
      ["load plated drill", "load top gerber"]);
    assert.deepEqual(tab.complaints(), []);
  });

  test("a folder", async () => {
    const tab = await open();
    await drop(tab, [KICAD]);
    assert.deepEqual(await opened(tab, 8), ALL);
    assert.deepEqual(tab.complaints(), []);
  });

  test("a folder next to a file", async () => {
    const tab = await open();
    await drop(tab, [join(EXAMPLES, "blinker", "blinker-F_Cu.gbr"), KICAD]);
    assert.equal((await opened(tab, 9)).length, 9);
  });

  test("a picture, and a file that is neither", async () => {
    const tab = await open();
    const paths = onDisk({ "top.gtl": gerber("X0Y0D03*"), "notes.md": "no layer\n",
      "a.pbm": pbm(40, 30, (column) => column === 39) });
    await drop(tab, paths);
    await tab.wait("document.getElementById('question').open", 60);
    assert.match((await seen(tab)).question.title, /a\.pbm/);
    await tab.key("Escape");
    await rest(tab);
    assert.deepEqual(await names(tab), ["top"]);
    // what is neither stands among the refused files, by its name
    const { told, refused } = await seen(tab);
    assert.match(told, /1 file refused/);
    assert.match(refused.join("\n"), /notes\.md/);
  });
});

suite("chosen", () => {
  test("files, in the dialogue that the button opens", async () => {
    const tab = await open();
    await choose(tab, "open", [join(KICAD, "nightlight-F_Cu.gbr"), join(KICAD, "nightlight-B_Cu.gbr")]);
    assert.deepEqual(await opened(tab, 2), ["bottom", "top"]);
  });

  test("a folder", async () => {
    const tab = await open();
    await choose(tab, "open-folder", [KICAD]);
    assert.deepEqual(await opened(tab, 8), ALL);
  });
});

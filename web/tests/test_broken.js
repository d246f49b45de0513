// What breaks in the browser is told, and the script can be saved still.

import assert from "node:assert/strict";
import { CTRL, gerber } from "./support.js";
import { WORKERS, failing, trapAt } from "./faults.js";
import { answer, onDisk, openFiles, press, toBoard, typeLine } from "./hands.js";
import { linesNow, rest, seen } from "./seen.js";
import { ran, saving, unzipped } from "./saving.js";
import { suite, test } from "../../tools/tests/harness.js";
import { tabs } from "./tab.js";

const open = tabs();
const PADS = gerber("X0Y0D03*", "X5000000Y0D03*", "X10000000Y0D03*");

async function type(tab, ...lines) {
  for (const line of lines) await typeLine(tab, line);
}

async function withPads(options = {}) {
  const tab = await open(options);
  await openFiles(tab, onDisk({ "pads.gtl": PADS }));
  await tab.wait("camplot.state.layers.length === 1");
  await rest(tab);
  return tab;
}

// All that the page says anywhere of what happened.
const said = async (tab) => {
  const { told, kept, question } = await seen(tab);
  return `${told} ${kept} ${question?.title ?? ""} ${question?.body ?? ""}`;
};

// The station is gone: that is told, the script with all accepted lines can be saved, and opening again has them.
// What waited for the station is done then.
async function isTold(tab, lines, waiting = []) {
  for (const until = Date.now() + 15000; !/stopped|stops|ended|failed|gone/i.test(await said(tab)) && Date.now() < until;) {
    await new Promise((done) => setTimeout(done, 100));
  }
  assert.match(await said(tab), /stopped|stops|ended|failed|gone/i);
  const files = unzipped((await saving(tab, () => press(tab, "[data-act=save-script]"))).bytes);
  assert.deepEqual(files.get("script").toString().split("\n").filter((line) => line && !line.startsWith("#")),
    ["load top gerber files/pads.gtl", ...lines]);
  assert.deepEqual(files.get("files/pads.gtl"), PADS);
  const { status, replies } = ran(files);
  assert.deepEqual([status, replies], [0, ["ok 3", ...lines.map(() => "ok")]]);
  const again = `[...document.querySelectorAll("button")].findIndex((button) => /open again/i.test(button.textContent)
    && button.getBoundingClientRect().width > 0)`;
  assert.ok(await tab.ask(again) >= 0, "there is no button to open again");
  await press(tab, "button", await tab.ask(again));
  await tab.wait(`${again} < 0 && document.body?.dataset.ready === "yes" && camplot.state.layers.length === 1`, 60);
  await rest(tab);
  const found = (await linesNow(tab)).filter((line) => !line.startsWith("#")).slice(1);
  assert.deepEqual(found, found.length > lines.length ? [...lines, ...waiting] : lines);
  await type(tab, "move top 2 0 4000");
  await rest(tab);
  assert.equal((await linesNow(tab)).at(-1), "move top 2 0 4000");
}

suite("the station", () => {
  test("traps in a line", async () => {
    // (the first line is the load; views are lines too, but none before it is told to draw)
    const tab = await withPads({ first: [trapAt(30)] });
    const done = ["move top 0 0 1000"];
    await type(tab, ...done);
    await rest(tab);
    for (let turn = 0; turn < 30 && !/stopped|failed|ended|unreachable/i.test(await said(tab)); turn++) {
      const line = `move top 1 0 ${1000 + turn}`;
      await type(tab, line);
      await rest(tab).catch(() => {});
      if ((await linesNow(tab)).at(-1) === line) done.push(line);
    }
    await isTold(tab, done);
  });

  test("throws in its worker", async () => {
    const tab = await withPads({ first: [WORKERS] });
    await type(tab, "move top 0 0 1000");
    await rest(tab);
    await tab.ask("workers[0].dispatchEvent(new ErrorEvent('error', { message: 'the test stops it' })); workers[0].terminate()");
    await isTold(tab, ["move top 0 0 1000"]);
  });

  test("is ended without a word, and then asked", async () => {
    const tab = await withPads({ first: [WORKERS] });
    await type(tab, "move top 0 0 1000");
    await rest(tab);
    await tab.ask("workers[0].terminate()");
    await type(tab, "move top 1 0 1000");
    await isTold(tab, ["move top 0 0 1000"], ["move top 1 0 1000"]);
  });
});

suite("the page", () => {
  test("tells a promise that nobody waits for", async () => {
    const tab = await withPads();
    await toBoard(tab);
    await tab.ask("setTimeout(() => { Promise.reject(new Error('lost in the test')); }, 0); 0");
    await tab.wait("/lost in the test/.test(document.body.textContent)", 60);
    assert.match(await said(tab), /lost in the test/);
  });

  test("tells an error of one of its handlers", async () => {
    const tab = await withPads();
    await tab.ask("setTimeout(() => { throw new Error('thrown in the test'); }, 0); 0");
    await tab.wait("/thrown in the test/.test(document.body.textContent)", 60);
    assert.match(await said(tab), /thrown in the test/);
  });

  for (const [name, what] of [["CompressionStream", "a PNG"], ["URL.createObjectURL", "a plot"]]) {
    test(`tells that ${what} cannot be made, and goes on`, async () => {
      const tab = await withPads();
      await tab.ask(`${failing(name)}; 0`);
      await tab.key("p", CTRL);
      await answer(tab, /Save/);
      await tab.wait("/it fails by the test/.test(document.body.textContent)", 60);
      assert.match(await said(tab), /it fails by the test/);
      await type(tab, "move top 0 0 1000");
      await rest(tab);
      assert.equal((await linesNow(tab)).at(-1), "move top 0 0 1000");
    });
  }

  test("does not say that it is saved where it could not be handed out", async () => {
    const tab = await withPads();
    await type(tab, "move top 0 0 1000");
    await rest(tab);
    await tab.ask(`${failing("URL.createObjectURL")}; 0`);
    await toBoard(tab);
    await tab.key("s", CTRL);
    await tab.wait("/it fails by the test/.test(document.body.textContent)", 60);
    await rest(tab);
    const { unsaved, told } = await seen(tab);
    assert.match(unsaved, /1 unsaved change/);
    assert.doesNotMatch(told, /saved in/);
  });
});

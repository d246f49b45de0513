// Several boards in one page, as tabs: each has its layers, its history, its view and its journal.

import assert from "node:assert/strict";
import { CTRL, SHIFT, gerber } from "./support.js";
import { answer, drop, onDisk, press, toBoard, typeLine } from "./hands.js";
import { rest, scriptNow, seen } from "./seen.js";
import { suite, test } from "../../tools/tests/harness.js";
import { tabs } from "./tab.js";

const open = tabs();
const pads = (count) => gerber(...Array.from({ length: count }, (_, at) => `X${at * 2000000}Y0D03*`));
const names = async (tab) => (await seen(tab)).layers.map(({ name, items }) => `${name} ${items}`);
const titles = (tab) => tab.ask("[...document.querySelectorAll('#tabs button')].map((one) => one.textContent)");
const chosen = (tab) => tab.ask("document.querySelector('#tabs [aria-selected=true]')?.textContent ?? null");

async function dropped(tab, files) {
  const before = (await seen(tab)).layers.length;
  await drop(tab, onDisk(files));
  await tab.wait(`camplot.state.layers.length === ${before + Object.keys(files).length}`, 60);
  await rest(tab);
}

async function type(tab, ...lines) {
  for (const line of lines) await typeLine(tab, line);
  await rest(tab);
  await toBoard(tab);
}

async function tabAt(tab, at) {
  await press(tab, "#tabs button", at);
  await rest(tab);
}

// Two boards, the second one is shown.
async function withTwo() {
  const tab = await open();
  await dropped(tab, { "lamp-F.gtl": pads(3), "lamp-B.gbl": pads(4) });
  await type(tab, "move top 0 1000 0");
  await press(tab, "[data-act=new-board]");
  await rest(tab);
  return tab;
}

suite("another board", () => {
  test("is next to the first one, which is as it was when it is shown again", async () => {
    const tab = await withTwo(), view = "JSON.stringify([camplot.view.left, camplot.view.top, camplot.view.pitch, camplot.view.quarters])";
    assert.deepEqual([await names(tab), await scriptNow(tab), await titles(tab)], [[], "", ["lamp", "board 2"]]);
    await dropped(tab, { "radio.gtl": pads(5) });
    await type(tab, "move top 1 2000 0", "move top 2 2000 0");
    assert.deepEqual([await titles(tab), await chosen(tab)], [["lamp", "radio"], "radio"]);
    await tab.key("T", SHIFT);
    await rest(tab);
    const there = await tab.ask(view);
    await tabAt(tab, 0);
    assert.equal(await tab.ask("camplot.view.quarters"), 0);
    assert.deepEqual([await names(tab), await chosen(tab)], [["bottom 4", "top 3"], "lamp"]);
    assert.match((await seen(tab)).history, /^1 to undo/);
    assert.notEqual(await tab.ask(view), there);
    await tab.key("z", CTRL);
    await rest(tab);
    assert.match((await seen(tab)).history, /^0 to undo, 1 to redo/);
    await tabAt(tab, 1);
    assert.deepEqual([await names(tab), await tab.ask(view)], [["top 5"], there]);
    assert.match((await seen(tab)).history, /^2 to undo, 0 to redo/);
    assert.deepEqual(tab.complaints(), []);
  });

  test("is there when the page is opened again, as each was left", async () => {
    const tab = await withTwo();
    await dropped(tab, { "radio.gtl": pads(5) });
    await type(tab, "move top 1 2000 0");
    for (let turn = 0; turn < 2; turn++) {
      await tab.reload();
      await rest(tab);
      assert.deepEqual([await titles(tab), await chosen(tab), await names(tab)], [["lamp", "radio"], "radio", ["top 5"]]);
      assert.match((await seen(tab)).history, /^1 to undo/);
    }
    await tabAt(tab, 0);
    assert.deepEqual(await names(tab), ["bottom 4", "top 3"]);
    await tab.reload();
    await rest(tab);
    assert.deepEqual([await chosen(tab), await names(tab)], ["lamp", ["bottom 4", "top 3"]]);
    await tabAt(tab, 1);
    assert.deepEqual(await names(tab), ["top 5"]);
    assert.deepEqual([(await seen(tab)).kept, tab.complaints()], ["", []]);
  });

  test("that is closed goes with its tab, the first one too", async () => {
    const tab = await withTwo();
    await dropped(tab, { "radio.gtl": pads(5) });
    await type(tab, "move top 1 2000 0");
    await press(tab, "[data-act=close-board]");
    await answer(tab, /^Close/);
    await rest(tab);
    assert.deepEqual([await titles(tab), await names(tab), await tab.ask("document.getElementById('tabs').hidden")],
      [["lamp"], ["bottom 4", "top 3"], true]);
    await press(tab, "[data-act=new-board]");
    await rest(tab);
    await dropped(tab, { "clock.gtl": pads(6) });
    await tabAt(tab, 0);
    await press(tab, "[data-act=close-board]");
    await answer(tab, /^Close/);
    await rest(tab);
    assert.deepEqual(await names(tab), ["top 6"]);
    await tab.reload();
    await rest(tab);
    assert.deepEqual([await names(tab), await tab.ask("document.getElementById('tabs').hidden")], [["top 6"], true]);
    assert.deepEqual(tab.complaints(), []);
  });

  test("with changes that are not saved is told before the page is left", async () => {
    const tab = await withTwo();
    assert.equal((await seen(tab)).unsaved, "all saved");
    assert.equal(await tab.ask("window.dispatchEvent(new Event('beforeunload', { cancelable: true }))"), false);
  });

  test("whose station ends while another one is shown says so, and is opened again", async () => {
    const tab = await withTwo();
    await tab.ask("camplot.boards.list[0].link.worker.terminate()");
    await tab.wait("!camplot.boards.list[0].state.station.isOpen", 60);
    assert.equal((await seen(tab)).kept, "");
    await tabAt(tab, 0);
    assert.match((await seen(tab)).kept, /The station stopped/);
    await press(tab, "#kept button", 1);
    await tab.wait("camplot.state.station.isOpen", 60);
    await rest(tab);
    assert.deepEqual([await names(tab), (await seen(tab)).kept], [["bottom 4", "top 3"], ""]);
    assert.match((await seen(tab)).history, /^1 to undo/);
  });

  test("goes too when all is started over", async () => {
    const tab = await withTwo();
    await dropped(tab, { "radio.gtl": pads(5) });
    await tab.ask("document.body.dataset.ready = 'no'");
    await press(tab, "[data-act=anew]");
    tab.isLeaving = true;
    await answer(tab, /Start over/);
    await tab.arrive();
    await rest(tab);
    assert.deepEqual([await names(tab), await tab.ask("document.getElementById('tabs').hidden")], [[], true]);
  });
});

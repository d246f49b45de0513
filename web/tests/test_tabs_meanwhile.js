// Boards in tabs on a slow machine: what is done while a board, its station or its journal is still under way.

import assert from "node:assert/strict";
import { gerber, text } from "./support.js";
import { drop, onDisk, press, toBoard, typeLine } from "./hands.js";
import { rest, scriptNow, seen } from "./seen.js";
import { suite, test } from "../../tools/tests/harness.js";
import { tabs } from "./tab.js";

const open = tabs();
const pads = (count) => gerber(...Array.from({ length: count }, (_, at) => `X${at * 2000000}Y0D03*`));
const old = "%FSLAX36Y36*MOMM*%\n%ADD10C,1.0*%\nG54D10*\nX0Y0D03*\nM00*\n";
const titles = (tab) => tab.ask("[...document.querySelectorAll('#tabs button')].map((one) => one.textContent)");
const named = async (tab) => (await seen(tab)).layers.map(({ name, items }) => `${name} ${items}`);

// Messages to workers of this kind are held back until `letGo()`, as by a machine that has much to do.
const holding = (kind) => `{
  const was = Worker.prototype.postMessage, held = [];
  globalThis.heldCount = () => held.length;
  Worker.prototype.postMessage = function (message, ...rest) {
    if (message?.kind === "${kind}" && !globalThis.isLetGo) held.push(() => was.call(this, message, ...rest));
    else was.call(this, message, ...rest);
  };
  globalThis.letGo = () => {
    globalThis.isLetGo = true;
    for (const send of held.splice(0)) send();
  };
}`;

async function dropped(tab, files, count) {
  await drop(tab, onDisk(files));
  await tab.wait(`camplot.state.layers.length === ${count}`, 60);
  await rest(tab);
}

// Two boards, the first one is shown.
async function withTwo(options = {}) {
  const tab = await open(options);
  await dropped(tab, { "lamp-F.gtl": pads(3) }, 1);
  await press(tab, "[data-act=new-board]");
  await rest(tab);
  await dropped(tab, { "radio.gtl": pads(5) }, 1);
  await press(tab, "#tabs button", 0);
  await rest(tab);
  return tab;
}

suite("boards while something is under way", () => {
  test("are all there when the page was left before it had begun", async () => {
    const tab = await withTwo();
    const { identifier } = await tab.call("Page.addScriptToEvaluateOnNewDocument", { source: holding("open") });
    await tab.reload(false);
    await tab.wait("globalThis.heldCount?.() > 0", 60);
    await tab.ask("document.dispatchEvent(new Event('visibilitychange'))");
    await tab.wait("!camplot.machine.kept.isBusy", 60);
    await tab.call("Page.removeScriptToEvaluateOnNewDocument", { identifier });
    await tab.reload();
    await rest(tab);
    assert.deepEqual([await titles(tab), await named(tab)], [["lamp-F", "radio"], ["top 3"]]);
    assert.deepEqual(tab.complaints(), []);
  });

  test("are all there when the page was left just as all of one was kept anew", async () => {
    const tab = await withTwo();
    // (how the page looks is not written any more: it is left before that)
    await tab.ask("camplot.machine.kept.keepLooks = async () => {}");
    await tab.ask("camplot.machine.gesture({ kind: 'close', name: 'top' })");
    await rest(tab);
    await tab.reload();
    await rest(tab);
    assert.deepEqual([await titles(tab), await named(tab)], [["board 1", "radio"], []]);
  });

  test("say at once that what is given to one that is not shown is not kept, where the quota is full", async () => {
    const tab = await withTwo({ quota: 300000 });
    // Flashes at places that cannot be packed.
    await tab.ask(`{
      const rows = Array.from({ length: 20000 }, (_, at) => "X" + at * 7919 % 100000000 + "Y" + at * 104729 % 100000000 + "D03*\\n");
      const bytes = new TextEncoder().encode("%FSLAX46Y46*%\\n%MOMM*%\\n%ADD10C,1*%\\nD10*\\n" + rows.join("") + "M02*\\n"), { boards } = camplot;
      boards.take(boards.list.find((board) => board !== boards.shown), { files: [{ name: "large.gbl", bytes }], areNamed: false, faults: [] });
    }`);
    await rest(tab);
    assert.match(await text(tab, "told"), /What was opened in radio is not kept\. .+/);
    await press(tab, "#tabs button", 1);
    await rest(tab);
    assert.notEqual(await tab.ask("camplot.state.kept.why"), null);
  });

  test("take what is done while another one begins, and keep it", async () => {
    const tab = await withTwo();
    await tab.ask(`{
      const { boards } = camplot, fresh = boards.fresh.bind(boards), may = new Promise((done) => { globalThis.letGo = done; });
      boards.fresh = () => may.then(() => fresh());
    }`);
    await press(tab, "[data-act=new-board]");
    await typeLine(tab, "move top 0 1000 0");
    await tab.wait("camplot.told.length === 2 && camplot.state.work === null", 60);
    await tab.ask("letGo()");
    await tab.wait("document.querySelectorAll('#tabs button').length === 3", 60);
    await rest(tab);
    assert.equal(await scriptNow(tab), "");
    await press(tab, "#tabs button", 0);
    await rest(tab);
    await typeLine(tab, "move top 1 2000 0");
    await rest(tab);
    await toBoard(tab);
    const { history, kept } = await seen(tab);
    assert.deepEqual([history.slice(0, 9), kept], ["2 to undo", ""]);
    await tab.reload();
    await rest(tab);
    assert.match((await seen(tab)).history, /^2 to undo/);
  });

  test("wait for refused files that are tried, which are asked about then", async () => {
    const tab = await withTwo();
    await tab.ask(holding("first"));
    await drop(tab, onDisk({ "old.gbl": old }));
    await tab.wait("globalThis.heldCount() > 0", 60);
    await press(tab, "#tabs button", 1);
    // (it would be there by now)
    await tab.ask("new Promise((done) => setTimeout(done, 300))");
    await tab.ask("letGo()");
    await tab.wait("/radio/.test(document.querySelector('#tabs [aria-selected=true]').textContent)", 60);
    await rest(tab);
    await press(tab, "#tabs button", 0);
    await tab.wait("document.getElementById('question').open", 60);
    assert.match((await seen(tab)).question.title, /^Convert old\.gbl/);
  });

  test("get no station that was opened for another one", async () => {
    const tab = await withTwo();
    await tab.ask("camplot.machine.link.worker.terminate()");
    await tab.wait("!camplot.state.station.isOpen", 60);
    await tab.ask(holding("open"));
    await press(tab, "#kept button", 1);
    await tab.wait("globalThis.heldCount() > 0", 60);
    await press(tab, "#tabs button", 1);
    await tab.ask("new Promise((done) => setTimeout(done, 300))");
    await tab.ask("letGo()");
    await tab.wait("/radio/.test(document.querySelector('#tabs [aria-selected=true]').textContent)", 60);
    await rest(tab);
    assert.deepEqual([await named(tab), (await seen(tab)).kept], [["top 5"], ""]);
    await press(tab, "#tabs button", 0);
    await rest(tab);
    assert.deepEqual([await named(tab), (await seen(tab)).kept], [["top 3"], ""]);
  });

  test("keep their tab where something is opened while they are closed", async () => {
    const tab = await withTwo();
    await tab.ask(holding("open"));
    await press(tab, "[data-act=close-board]");
    await tab.wait("globalThis.heldCount() > 0", 60);
    await drop(tab, onDisk({ "clock-B.gbl": pads(6) }));
    await tab.wait("camplot.state.queue.some(({ kind }) => kind === 'load')", 60);
    await tab.ask("letGo()");
    await tab.wait("camplot.state.layers.some(({ items }) => items === 6)", 60);
    await rest(tab);
    assert.deepEqual([await titles(tab), await named(tab)], [["clock-B", "radio"], ["bottom 6"]]);
    await tab.reload();
    await rest(tab);
    assert.deepEqual([await titles(tab), await named(tab)], [["clock-B", "radio"], ["bottom 6"]]);
  });
});

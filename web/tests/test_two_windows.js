// Two windows of one browser with the same page: no board is lost, and none is in both.

import assert from "node:assert/strict";
import { readFileSync, writeFileSync } from "node:fs";
import { join } from "node:path";
import { REPOSITORY, gerber, room } from "./support.js";
import { answer, drop, onDisk, pause, press, typeLine } from "./hands.js";
import { rest, scriptNow, seen } from "./seen.js";
import { suite, test } from "../../tools/tests/harness.js";
import { tabs } from "./tab.js";

const open = tabs();
const pads = (count) => gerber(`G04 ${count} items*`, ...Array.from({ length: count }, (_, at) => `X${at * 2000000}Y0D03*`));
const titles = (tab) => tab.ask("[...document.querySelectorAll('#tabs button')].map((one) => one.textContent)");
const rows = (tab) => tab.ask("[...document.querySelectorAll('#boards-list li')].map((one) => [...one.children].map((part) => part.textContent).join(': '))");

async function dropped(tab, name, count) {
  const before = (await seen(tab)).layers.length;
  await drop(tab, onDisk({ [name]: pads(count) }));
  await tab.wait(`camplot.state.layers.length === ${before + 1}`, 60);
  await rest(tab);
}

async function another(tab) {
  await press(tab, "[data-act=new-board]");
  await rest(tab);
}

async function show(tab, at) {
  await press(tab, "#tabs button", at);
  await rest(tab);
}

// A window with lamp and radio, of which it has shown lamp alone since it was opened, and a second window.
async function withTwo() {
  const first = await open();
  await dropped(first, "lamp.gtl", 3);
  await another(first);
  await dropped(first, "radio.gtl", 5);
  await show(first, 0);
  await first.reload();
  await rest(first);
  const second = await open({ context: first.context });
  await rest(second);
  return { first, second };
}

// The list of all boards, and what it offers of one of them.
async function chosen(tab, title) {
  await press(tab, "[data-act=boards]");
  await tab.wait(`[...document.querySelectorAll('#boards-list b')].some((one) => one.textContent === ${JSON.stringify(title)})`, 20);
  const at = await tab.ask(`[...document.querySelectorAll('#boards-list button')].findIndex((one) =>
    one.closest('li').querySelector('b').textContent === ${JSON.stringify(title)})`);
  await press(tab, "#boards-list button", at);
}

suite("a second window", () => {
  test("gets a board of its own by new, and closes none of the first one's", async () => {
    const { first, second } = await withTwo();
    await another(second);
    assert.equal(await scriptNow(second), "");
    await dropped(second, "clock.gtl", 2);
    await press(second, "[data-act=close-board]");
    await pause(300);
    if ((await seen(second)).question) await answer(second, /^Close/);
    await rest(second);
    await show(first, 1);
    assert.deepEqual([await scriptNow(first), (await seen(first)).kept], ["load top gerber files/radio.gtl\n", ""]);
    assert.deepEqual([...first.complaints(), ...second.complaints()], []);
  });

  test("that starts over leaves the boards of the first one", async () => {
    const { first, second } = await withTwo();
    await another(second);
    await second.ask("document.body.dataset.ready = 'no'");
    await press(second, "[data-act=anew]");
    second.isLeaving = true;
    await answer(second, /Start over/);
    await second.arrive();
    await rest(second);
    await first.reload();
    await rest(first);
    assert.deepEqual([await titles(first), await scriptNow(first)], [["lamp", "radio"], "load top gerber files/lamp.gtl\n"]);
    await show(first, 1);
    assert.equal(await scriptNow(first), "load top gerber files/radio.gtl\n");
  });

  test("keeps what is new in it, which is there when both were closed and the page is opened again", async () => {
    const { first, second } = await withTwo();
    await another(second);
    await dropped(second, "clock.gtl", 2);
    await typeLine(second, "move top 1 7000 0");
    await rest(second);
    const isPromised = (await seen(second)).kept === "";
    await second.close();
    await first.close();
    const again = await open({ context: first.context });
    await rest(again);
    assert.deepEqual([isPromised, await titles(again)], [true, ["lamp", "radio", "clock"]]);
    assert.equal(await scriptNow(again), "load top gerber files/clock.gtl\nmove top 1 7000 0\n");
    await another(again);
    assert.equal(await scriptNow(again), "");
  });

  test("lists all boards, opens those that no window has, and takes over what another one has, which ends there", async () => {
    const { first, second } = await withTwo();
    assert.match((await seen(second)).told, /^2 boards are open in another window/);
    await press(second, "[data-act=boards]");
    await second.wait("document.querySelectorAll('#boards-list li').length === 3", 20);
    assert.deepEqual((await rows(second)).slice(1), ["lamp: open in another window: take over", "radio: open in another window: take over"]);
    await second.key("Escape");
    await typeLine(first, "move top 2 9000 0");
    await chosen(second, "lamp");
    await second.wait("camplot.told.length === 2", 20);
    await rest(second);
    assert.equal(await scriptNow(second), "load top gerber files/lamp.gtl\nmove top 2 9000 0\n");
    await first.wait("document.getElementById('told').textContent === 'lamp is open in another window now.'", 20);
    await rest(first);
    assert.equal(await scriptNow(first), "load top gerber files/radio.gtl\n");
    await typeLine(second, "move top 1 9000 0");
    await first.close();
    // (a browser with other work lets a closed window's locks go later)
    await pause(3000);
    await chosen(second, "radio");
    await second.wait("camplot.told.length === 1", 60);
    await rest(second);
    assert.deepEqual([await titles(second), (await seen(second)).kept], [["lamp", "radio"], ""]);
    await second.reload();
    await rest(second);
    assert.deepEqual([await titles(second), second.complaints()], [["lamp", "radio"], []]);
  });

  test("takes a board over whose window does not answer, and nothing more comes to it from there", async () => {
    const { first, second } = await withTwo();
    await first.ask("globalThis.isStill = true; camplot.boards.holding.channel.onmessage = null; 0");
    await chosen(second, "lamp");
    await second.wait("camplot.told.length === 1", 30);
    await rest(second);
    await first.wait("document.getElementById('told').textContent === 'lamp is open in another window now.'", 20);
    await rest(first);
    assert.deepEqual([await scriptNow(first), await scriptNow(second)], ["load top gerber files/radio.gtl\n", "load top gerber files/lamp.gtl\n"]);
    await typeLine(second, "move top 0 5000 0");
    await rest(second);
    assert.equal((await seen(second)).kept, "");
  });

  test("goes on with the boards of the first one, once that is closed, where nothing was done in it", async () => {
    const { first, second } = await withTwo();
    await first.close();
    await second.wait("camplot.told.length === 1", 30);
    await rest(second);
    assert.deepEqual([await titles(second), (await seen(second)).kept], [["lamp", "radio"], ""]);
  });
});

// What the page of before wrote into its databases, as Chromium had it: lamp with two layers and an edit, radio with an edit, a deletion
// and its undo, and clock, which a second window made and no list had.
const OLDER = JSON.parse(readFileSync(join(REPOSITORY, "web", "tests", "store_of_before.json"), "utf8"));

// Puts databases into the browser of a page that is open.
const put = (tab, databases) => tab.ask(`(async () => {
  const done = (request) => new Promise((well, ill) => { request.onsuccess = () => well(request.result); request.onerror = () => ill(request.error); });
  const value = (part) => part?.bytes !== undefined ? Uint8Array.from(atob(part.bytes), (letter) => letter.charCodeAt(0)) : part;
  for (const [name, stores] of Object.entries(${JSON.stringify(databases)})) {
    const request = indexedDB.open(name, 1);
    request.onupgradeneeded = () => {
      request.result.createObjectStore("lines", { autoIncrement: true });
      for (const store of ["files", "looks"]) request.result.createObjectStore(store);
    };
    const base = await done(request), transaction = base.transaction(["lines", "files", "looks"], "readwrite");
    for (const [store, rows] of Object.entries(stores)) for (const [key, row] of rows) transaction.objectStore(store).put(value(row), key);
    await new Promise((well) => { transaction.oncomplete = well; });
    base.close();
  }
})()`);

suite("what a page of before kept", () => {
  test("is there in the page of now: the boards in their tabs, and one that no list had is offered", async () => {
    const folder = room(), empty = join(folder, "empty.html");
    writeFileSync(empty, "<!DOCTYPE html><title>empty</title><body data-ready='yes'>");
    const before = await open({ page: empty });
    await put(before, OLDER);
    const tab = await open({ context: before.context });
    await rest(tab);
    assert.match((await seen(tab)).told, /^1 board is kept that no list had: see 'boards'\./);
    assert.deepEqual([await titles(tab), await scriptNow(tab)],
      [["lamp", "radio"], "load top gerber files/radio.gtl\nmove top 0 7000 0\ndelete top 2\nundo\n"]);
    await show(tab, 0);
    assert.equal(await scriptNow(tab), "load top gerber files/lamp-F.gtl\nload bottom gerber files/lamp-B.gbl\nmove top 1 5000 0\n");
    await chosen(tab, "clock");
    await tab.wait("camplot.told.length === 2", 20);
    await rest(tab);
    assert.equal(await scriptNow(tab), "load top gerber files/clock.gtl\nmove top 1 9000 0\n");
    assert.deepEqual(await tab.ask("indexedDB.databases().then((list) => list.map(({ name }) => name))"), ["camplot boards"]);
    await typeLine(tab, "move top 0 1000 0");
    await rest(tab);
    await tab.reload();
    await rest(tab);
    assert.deepEqual([await titles(tab), await scriptNow(tab)],
      [["lamp", "clock", "radio"], "load top gerber files/clock.gtl\nmove top 1 9000 0\nmove top 0 1000 0\n"]);
    assert.deepEqual([(await seen(tab)).kept, tab.complaints()], ["", []]);
  });
});

suite("files that are dropped", () => {
  // A worker that unpacks gets its message late.
  const LATE = `{ const send = Worker.prototype.postMessage;
    Worker.prototype.postMessage = function (message, ...rest) {
      if (message?.kind === "unpack") setTimeout(() => send.call(this, message, ...rest), 1500);
      else send.call(this, message, ...rest);
    }; const whole = Blob.prototype.arrayBuffer;
    Blob.prototype.arrayBuffer = function () { return new Promise((done) => { setTimeout(done, 1500); }).then(() => whole.call(this)); }; }`;

  test("belong to the board that they were dropped on, whichever is shown when they are read", async () => {
    const first = await open({ first: [LATE] });
    await dropped(first, "lamp.gtl", 3);
    await another(first);
    await dropped(first, "radio.gtl", 5);
    await drop(first, onDisk({ "more.gbl": pads(4) }));
    await show(first, 0);
    await pause(3500);
    assert.equal(await scriptNow(first), "load top gerber files/lamp.gtl\n");
    // They are kept by then.
    await first.reload();
    await rest(first);
    await show(first, 1);
    await first.wait("camplot.told.length === 2", 20);
    assert.equal(await scriptNow(first), "load top gerber files/radio.gtl\nload bottom gerber files/more.gbl\n");
  });
});

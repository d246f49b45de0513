// Finding what is typed, and what the page tells about a board.

import assert from "node:assert/strict";
import { CTRL, SHIFT, give, gerber, kicad, openPage, picked, run, settle, text, withBoard } from "./support.js";
import { alikeOf, indexOf } from "../telling/index.js";
import { assertCentre, centre, idle, reload } from "./looking.js";
import { drop, onDisk, pause, press } from "./hands.js";
import { firstState, step } from "../machine/index.js";
import { nightlightPlated, nightlightTop } from "./telling.js";
import { suite, test } from "../../tools/tests/harness.js";

const value = (browser, expression) => browser.ask(expression);
const groups = (browser) => value(browser, `[...document.querySelectorAll("#find-results [role=group]")].map((group) => [group.getAttribute("aria-label"),
  ...[...group.querySelectorAll("[role=option]")].map((found) => found.querySelector("b").textContent)])`);
const counts = (browser) => value(browser, "[...document.querySelectorAll('#find-results .count')].map((count) => count.textContent)");
const isOpen = (browser) => value(browser, "!document.getElementById('find').hidden");
const lit = (browser) => value(browser, "camplot.state.lit && [camplot.state.lit.of.kind, camplot.state.lit.of.id, camplot.state.lit.items.length]");
const marked = (browser) => value(browser, "document.querySelector('#find-results [aria-selected=true] b').textContent");

async function typed(browser, words, count) {
  await browser.ask("document.getElementById('find-text').select()");
  await browser.type(words);
  await idle(browser);
  await browser.wait(`document.querySelectorAll("#find-results [role=option]").length === ${count}`, 20);
}

async function finding() {
  const browser = await withBoard();
  await browser.key("f", CTRL);
  return browser;
}

// What is gone to lies in the middle of what the rulers leave free.
async function assertMiddle(browser, [x, y]) {
  const [atX, atY] = await centre(browser), pitch = await browser.ask("camplot.view.pitch");
  assert.ok(Math.abs(atX - x) <= 12 * pitch && Math.abs(atY - y) <= 12 * pitch, `${atX}, ${atY} and not ${x}, ${y}`);
}

suite("finding", () => {
  test("by typing: results by kind with their counts; Enter goes there and lights it, and Escape closes", async () => {
    const browser = await finding();
    assert.deepEqual([await isOpen(browser), await value(browser, "document.activeElement.id")], [true, "find-text"]);
    await typed(browser, "r1", 6);
    assert.deepEqual(await groups(browser), [["components: 2", "R1", "LDR1"], ["pins: 4", "R1-1", "R1-2", "LDR1-1", "LDR1-2"]]);
    // Of R1 two pads, two openings of the mask, and twelve lines of the silkscreen.
    assert.deepEqual(await counts(browser), ["16 items", "28 items", "1 item", "1 item", "2 items", "2 items"]);
    assert.equal(await text(browser, "find-said"), "6 found");
    await browser.key("ArrowDown");
    await browser.key("ArrowDown");
    assert.deepEqual([await marked(browser), await value(browser, "document.activeElement.getAttribute('aria-activedescendant')")], ["R1-1", "found-2"]);
    await browser.key("Enter");
    await idle(browser);
    assert.deepEqual(await lit(browser), ["pin", "R1-1", 1]);
    await assertMiddle(browser, [109087500, -85000000]);
    assert.equal(await text(browser, "told"), "pin R1-1: 1 item.");
    // The field has the focus still, and the keys of the board do nothing.
    assert.deepEqual([await isOpen(browser), await value(browser, "document.activeElement.id")], [true, "find-text"]);
    await browser.key("Escape");
    await idle(browser);
    assert.deepEqual([await isOpen(browser), await lit(browser), await value(browser, "document.activeElement.id")], [false, ["pin", "R1-1", 1], "marks"]);
    await browser.key("Escape");
    assert.equal(await lit(browser), null);
    assert.deepEqual(browser.complaints(), []);
  });

  test("goes to what was typed, though Enter comes before what is found, and to the best of it", async () => {
    const browser = await withBoard();
    // One after another in a moment, as a quick hand does it.
    await browser.key("f", CTRL);
    await browser.ask(`(() => { const field = document.getElementById("find-text");
      for (const words of ["1", "ldr1", "r1"]) { field.value = words; field.dispatchEvent(new InputEvent("input")); }
      field.dispatchEvent(new KeyboardEvent("keydown", { key: "Enter", bubbles: true, cancelable: true })); })()`);
    await idle(browser);
    assert.deepEqual([await lit(browser), await marked(browser)], [["component", "R1", 16], "R1"]);
    assert.deepEqual(browser.complaints(), []);
  });

  test("by a click: a net, a tool, and a place; a layer that is hidden is shown", async () => {
    const browser = await finding();
    await typed(browser, "gnd", 1);
    await press(browser, "#find-results [role=option]");
    await idle(browser);
    // On top 3 pads, 4 vias and a track, at the bottom 2 pads, 4 vias and a pour: counted in the files.
    assert.deepEqual(await lit(browser), ["net", "GND", 15]);
    assert.equal(await value(browser, "camplot.state.lit.items.filter(({ name }) => name === 'top').length"), 8);
    await typed(browser, "t3", 1);
    assert.deepEqual(await groups(browser), [["tools: 1", "T3"]]);
    await press(browser, "#find-results [role=option]");
    await idle(browser);
    assert.deepEqual(await value(browser, "camplot.state.lit.items.map(({ words }) => words)"), ["hit 3 104000000 -88730000", "hit 3 104000000 -91270000"]);
    await browser.ask("camplot.machine.send({ kind: 'show', name: null, isShown: false })");
    await browser.key("Enter");
    await idle(browser);
    assert.deepEqual(await value(browser, "camplot.state.layers.filter(({ isShown }) => isShown).map(({ name }) => name)"), ["plated"]);
    await typed(browser, "4.6in, -85mm", 1);
    assert.deepEqual(await groups(browser), [["place: 1", "116.840, -85.000 mm"]]);
    await browser.key("Enter");
    await assertCentre(browser, [116840000, -85000000]);
    await typed(browser, "no such thing", 0);
    assert.equal(await text(browser, "find-said"), "Nothing has that.");
    assert.deepEqual(browser.complaints(), []);
  });

  test("follows edits while it is open, and reads nothing while it is not", async () => {
    const browser = await finding();
    await typed(browser, "+5v", 1);
    assert.deepEqual(await counts(browser), ["9 items"]);
    await value(browser, `globalThis.asked = []; const { link } = camplot.machine, { call } = link;
      link.call = function(kind, ...more) { asked.push(kind); return call.call(link, kind, ...more); };`);
    await run(browser, "delete top 0");
    await browser.wait("document.querySelector('#find-results .count').textContent === '8 items'", 20);
    await run(browser, "undo");
    await browser.wait("document.querySelector('#find-results .count').textContent === '9 items'", 20);
    assert.ok((await value(browser, "asked")).includes("find"));
    await press(browser, "#find-close");
    await value(browser, "asked.length = 0");
    await run(browser, "delete top 0");
    await idle(browser);
    assert.deepEqual(await value(browser, "asked"), []);
    // Opened again it has the text of before, and what that finds now.
    await browser.key("f", CTRL);
    await browser.wait("document.querySelector('#find-results .count').textContent === '8 items'", 20);
    assert.deepEqual(browser.complaints(), []);
  });

  test("more than can be picked or lit are named with their number, and files that can't be read with the reason", () => {
    const of = { kind: "net", id: "GND", text: "GND" };
    const said = (gesture, answer) => {
      const begun = step(step(firstState(), { kind: "started" }).state, { kind: "gesture", gesture }), [message] = begun.messages;
      assert.deepEqual([message.to, message.of, begun.state.work.gesture.kind], ["worker", of, gesture.kind]);
      const { state } = step(begun.state, { kind: "answer", number: message.number, answer });
      return [state.said.text, state.said.isFault, state.picked.length, state.lit?.items.length ?? 0, state.work];
    };
    const places = Array.from({ length: 5000 }, (_, place) => ({ name: "top", place }));
    assert.deepEqual(said({ kind: "pickShared", of }, { found: { places, count: 5001 }, why: null }),
      ["net GND has 5,001 items, and 5000 are the most that can be picked.", true, 0, 0, null]);
    const items = [{ name: "top", place: 0, words: "flash 10 0 0 r0 dark", box: "-1 -1 1 1" }];
    assert.deepEqual(said({ kind: "light", of }, { found: { items, count: 20001, entries: {} }, why: null }),
      ["net GND: 20,001 items, 1 of which are lit.", false, 0, 1, null]);
    for (const kind of ["light", "pickShared"]) {
      assert.deepEqual(said({ kind, of }, { found: null, why: "no file" }), ["The files can't be read for that: no file", true, 0, 0, null]);
    }
  });

  test("of two layers whose apertures have one number, each is its own", () => {
    const layers = [nightlightTop(), nightlightPlated()], index = indexOf(layers, "mm");
    for (const layer of layers) {
      layer.items.forEach((item, place) => {
        for (const { kind, id, text: shown } of alikeOf(layer, place)) {
          const entry = index.get(kind, id);
          assert.equal(entry?.text, shown);
          assert.ok(entry.lights.some((light) => light.layer === layer.name && light.places.includes(place)), `${layer.name} ${place} ${id}`);
        }
      });
    }
    assert.deepEqual(alikeOf(layers[0], 2), [{ kind: "net", id: "+5V", text: "+5V" }, { kind: "component", id: "R1", text: "R1" },
      { kind: "aperture", id: "top D12", text: "D12" }]);
    assert.deepEqual(alikeOf(layers[1], 0), [{ kind: "tool", id: "plated T1", text: "T1" }]);
    assert.deepEqual(alikeOf(layers[0], 1000), []);
  });
});

const JOB = JSON.stringify({ Header: { GenerationSoftware: { Vendor: "KiCad", Application: "Pcbnew", Version: "8.0.4" } },
  GeneralSpecs: { BoardThickness: 1.6, Finish: "ENIG" }, FilesAttributes: [{ Path: "nightlight-F_Cu.gbr", FileFunction: "Copper,L1,Top" },
    { Path: "nightlight-F_Paste.gbr", FileFunction: "SolderPaste,Top" }] });

suite("about this board", () => {
  const rows = (browser) => value(browser, "[...document.querySelectorAll('#about-body tr')].map((row) => [...row.cells].map((cell) => cell.textContent))");
  const of = (all, name) => all.filter(([found]) => found === name).map(([, words]) => words);

  async function opened(browser) {
    await browser.key("A", SHIFT);
    await browser.wait("document.querySelectorAll('#about-body tr').length > 0", 20);
    return rows(browser);
  }

  test("is a table, with what its job file says; and text to copy", async () => {
    const browser = await openPage();
    await give(browser, [...kicad(), { name: "nightlight.gbrjob", bytes: Buffer.from(JOB) }]);
    await settle(browser);
    assert.equal(await text(browser, "told"), "8 layers opened. nightlight.gbrjob is kept for what it says about this board.");
    const all = await opened(browser);
    assert.deepEqual(all.slice(0, 2), [["sides", "30.00 by 20.00 mm, along the middle of the outline's lines"],
      ["outline", "outline, from 100.000, -100.000 to 130.000, -80.000 mm"]]);
    assert.deepEqual(["copper layers", "layers", "items", "holes", "slots", "smallest hole", "largest hole", "written by"].map((name) => of(all, name)),
      [["2: top copper, bottom copper"], ["8"], ["208"], ["10"], ["1"], ["0.40 mm, plated"], ["2.20 mm, not plated"], ["KiCad Pcbnew 8.0.4"]]);
    assert.deepEqual(["job file: finish", "job file: thickness", "job file: missing file"].map((name) => of(all, name)),
      [["ENIG"], ["1.60 mm"], ["nightlight-F_Paste.gbr (top paste)"]]);
    await value(browser, "navigator.clipboard.writeText = (text) => { globalThis.copied = text; return Promise.resolve(); }");
    await press(browser, "#about-copy");
    await browser.wait("globalThis.copied !== undefined", 10);
    assert.equal(await text(browser, "about-said"), "It is copied.");
    assert.deepEqual((await value(browser, "copied")).split("\n").filter((line) => line).map((line) => line.split(/: +/)[0]),
      all.map(([name]) => name.startsWith("job file") ? "job file" : name));
    await value(browser, "navigator.clipboard.writeText = () => Promise.reject(new Error('no'))");
    await press(browser, "#about-copy");
    await browser.wait("/copies nothing/.test(document.getElementById('about-said').textContent)", 10);
    await browser.key("Escape");
    assert.equal(await value(browser, "document.getElementById('about').open"), false);
    assert.deepEqual(browser.complaints(), []);
  });

  test("has a job file that is dropped later, also when the page is loaded anew; and the unit", async () => {
    const browser = await withBoard();
    assert.deepEqual((await opened(browser)).filter(([name]) => name.startsWith("job file")), []);
    await browser.key("Escape");
    await drop(browser, onDisk({ "board.gbrjob": JOB }));
    await browser.wait("/^board\\.gbrjob is kept/.test(document.getElementById('told').textContent)", 20);
    await browser.key("u");
    await idle(browser);
    await pause(300);
    await reload(browser);
    await idle(browser);
    const all = await opened(browser);
    assert.deepEqual([of(all, "job file: finish"), of(all, "smallest hole")], [["ENIG"], ["0.01574803 in, plated"]]);
    await browser.key("Escape");
    await browser.ask("camplot.machine.gesture({ kind: 'closeAll' })");
    await idle(browser);
    assert.equal(await value(browser, "camplot.state.job"), null);
    await browser.key("A", SHIFT);
    assert.deepEqual([await value(browser, "document.getElementById('about').open"), await text(browser, "told")], [false, "No layer is open."]);
    assert.deepEqual(browser.complaints(), []);
  });

  test("a job file that is no JSON is named with the reason, and one that comes alone is told what it is", async () => {
    const browser = await openPage();
    await give(browser, [{ name: "a.gtl", bytes: gerber("X0Y0D03*") }, { name: "b.gbrjob", bytes: Buffer.from("{ <b>") }]);
    const [words] = of(await opened(browser), "job file");
    assert.match(words, /^b\.gbrjob is not read: it is no JSON/);
    assert.deepEqual(await picked(browser), []);
    const alone = step(firstState(), { kind: "open", token: "t", files: [{ name: "c.gbrjob", bytes: new Uint8Array([123, 125]) }] }).state;
    assert.deepEqual([alone.job, Object.values(alone.openings)[0].faults], [null, ["c.gbrjob is a Gerber job file, which lists a board's files: drop these."]]);
    const large = { name: "d.gbrjob", bytes: new Uint8Array((1 << 20) + 1) }, file = { name: "a.gtl", bytes: new Uint8Array(gerber("X0Y0D03*")) };
    const both = step(firstState(), { kind: "open", token: "t", files: [file, large] }).state;
    assert.deepEqual([both.job, Object.values(both.openings)[0].faults.length], [null, 1]);
    assert.deepEqual(browser.complaints(), []);
  });
});

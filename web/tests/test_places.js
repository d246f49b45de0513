// What a gesture changes is what was picked when the one before it was done, and a pick stays with its item.

import assert from "node:assert/strict";
import { CTRL, SHIFT, gerber, onPage, settle } from "./support.js";
import { late } from "./faults.js";
import { hold, onDisk, openFiles, toBoard, typeLine } from "./hands.js";
import { linesNow, pickedNow, rest, seen } from "./seen.js";
import { suite, test } from "../../tools/tests/harness.js";
import { tabs } from "./tab.js";

const open = tabs();
const PITCH = 2000000;
const words = (pad) => `flash 10 ${pad * PITCH} 0 r0 dark`;

// A row of pads of 1 mm, 2 mm apart, from (0, 0): that of place N lies at N times 2 mm.
async function withRow(options = {}) {
  const tab = await open(options), count = 10;
  const row = gerber(...Array.from({ length: count }, (_, at) => `X${at * PITCH}Y0D03*`));
  await openFiles(tab, onDisk({ "row.gtl": row }));
  await tab.wait("camplot.state.layers.length === 1");
  await rest(tab);
  await settle(tab);
  return tab;
}

async function clickPad(tab, pad, modifiers = 0) {
  await tab.click(...await onPage(tab, pad * PITCH, 0), modifiers);
}

async function pickPad(tab, pad) {
  await clickPad(tab, pad);
  await tab.wait(`camplot.state.picked[0]?.words === ${JSON.stringify(words(pad))}`, 60);
}

async function type(tab, ...lines) {
  for (const line of lines) await typeLine(tab, line);
  await rest(tab);
  await toBoard(tab);
}

const edits = async (tab) => (await linesNow(tab)).filter((line) => !/^load|^begin|^end/.test(line));
const picks = async (tab) => (await pickedNow(tab)).map(({ place, words: said }) => `${place} ${said}`);

suite("a key that is held", () => {
  for (const every of [0, 35]) {
    test(`Delete deletes what was picked, and no neighbour, a stroke each ${every} ms`, async () => {
      const tab = await withRow();
      await pickPad(tab, 5);
      await hold(tab, "Delete", 4, { every });
      await rest(tab);
      assert.deepEqual(await edits(tab), ["delete top 5"]);
      assert.equal((await seen(tab)).layers[0].items, 9);
      assert.deepEqual(await picks(tab), []);
      assert.deepEqual(tab.complaints(), []);
    });
  }

  test("Delete of several", async () => {
    const tab = await withRow();
    await pickPad(tab, 2);
    await clickPad(tab, 4, SHIFT);
    await tab.wait("camplot.state.picked.length === 2");
    await hold(tab, "Delete", 5);
    await rest(tab);
    assert.deepEqual(await edits(tab), ["delete top 4", "delete top 2"]);
  });

  test("] takes an item one place further each time", async () => {
    const tab = await withRow();
    await pickPad(tab, 2);
    await hold(tab, "]", 3);
    await rest(tab);
    assert.deepEqual(await edits(tab), ["reorder top 2 3", "reorder top 3 4", "reorder top 4 5"]);
    assert.deepEqual(await picks(tab), [`5 ${words(2)}`]);
    await hold(tab, "[", 7);
    await rest(tab);
    assert.deepEqual(await picks(tab), [`0 ${words(2)}`]);
    assert.equal((await edits(tab)).length, 8);
  });

  test("arrows move by each stroke", async () => {
    const tab = await withRow();
    await pickPad(tab, 3);
    await hold(tab, "ArrowUp", 12);
    await rest(tab);
    assert.deepEqual(await picks(tab), [`3 flash 10 ${3 * PITCH} 120000 r0 dark`]);
  });

  test("undo, and redo, one step each", async () => {
    const tab = await withRow();
    for (let k = 0; k < 6; k++) await type(tab, `move top ${k} 0 1000`);
    await hold(tab, "z", 4, { modifiers: CTRL });
    await rest(tab);
    assert.match((await seen(tab)).history, /2 to undo, 4 to redo/);
    await hold(tab, "z", 9, { modifiers: CTRL });
    await hold(tab, "y", 3, { modifiers: CTRL });
    await rest(tab);
    assert.match((await seen(tab)).history, /3 to undo, 3 to redo/);
    assert.ok(!(await linesNow(tab)).some((line) => line.startsWith("#")), (await linesNow(tab)).join("\n"));
  });

  test("Ctrl V pastes a copy each time", async () => {
    const tab = await withRow();
    await pickPad(tab, 1);
    await tab.key("c", CTRL);
    await hold(tab, "v", 3, { modifiers: CTRL });
    await rest(tab);
    assert.deepEqual(await edits(tab), [1, 2, 3].map((k) => `insert top ${9 + k} flash 10 ${PITCH + k * 100000} ${k * 100000} r0 dark`));
    assert.deepEqual(await picks(tab), [`12 flash 10 ${PITCH + 300000} 300000 r0 dark`]);
  });
});

suite("quick gestures", () => {
  test("two clicks, each with its Delete, delete those two", async () => {
    const tab = await withRow({ first: [late(60)] });
    const [first, second] = [await onPage(tab, 2 * PITCH, 0), await onPage(tab, 7 * PITCH, 0)];
    await tab.click(...first);
    await tab.key("Delete");
    await tab.click(...second);
    await tab.key("Delete");
    await rest(tab);
    assert.deepEqual(await edits(tab), ["delete top 2", "delete top 6"]);
    await hold(tab, "z", 2, { modifiers: CTRL });
    await rest(tab);
    assert.equal((await seen(tab)).layers[0].items, 10);
  });

  test("a key after a click is for what the click picked", async () => {
    const tab = await withRow({ first: [late(60)] });
    await pickPad(tab, 2);
    await clickPad(tab, 8);
    await tab.key("x");
    await rest(tab);
    assert.deepEqual(await edits(tab), ["polarity top 8 clear"]);
  });

  test("points of a tool, one after another", async () => {
    const tab = await withRow({ first: [late(60)] });
    await tab.key("1");
    for (const pad of [1, 3, 5]) await tab.click(...await onPage(tab, pad * PITCH, 1500000));
    await rest(tab);
    const made = await edits(tab);
    assert.deepEqual(made.map((line) => line.split(" ").slice(0, 5).join(" ")), [10, 11, 12].map((at) => `insert top ${at} flash 10`));
    assert.deepEqual(await picks(tab), [`12 ${made[2].split(" ").slice(3).join(" ")}`]);
  });
});

suite("two layers", () => {
  const board = () => onDisk({ "a.gtl": gerber("X0Y0D03*", "X4000000Y0D03*"),
    "b.gbl": "%FSLAX46Y46*%\n%MOMM*%\n%ADD10C,0.300000*%\n%ADD20C,1.500000*%\nD20*\nX8000000Y0D03*\nX12000000Y0D03*\nM02*\n" });

  test("a tool right after a pick in another layer uses an aperture of that layer", async () => {
    const tab = await open({ first: [late(60)] });
    await openFiles(tab, board());
    await tab.wait("camplot.state.layers.length === 2");
    await rest(tab);
    await settle(tab);
    await tab.click(...await onPage(tab, 0, 0));
    await rest(tab);
    const [there, beside] = [await onPage(tab, 8000000, 0), await onPage(tab, 10000000, 2000000)];
    // What the panel offers for the layer once it is chosen is its first aperture.
    await tab.click(...there);
    await tab.key("1");
    await tab.click(...beside);
    await rest(tab);
    const slow = await tab.ask("document.querySelector('#active select').value");
    assert.match((await edits(tab)).at(-1), new RegExp(`^insert bottom 2 flash ${slow} `));
  });

  test("what is picked in both is deleted in both", async () => {
    const tab = await open();
    await openFiles(tab, board());
    await tab.wait("camplot.state.layers.length === 2");
    await rest(tab);
    await settle(tab);
    await tab.click(...await onPage(tab, 4000000, 0));
    await tab.click(...await onPage(tab, 8000000, 0), SHIFT);
    await tab.wait("camplot.state.picked.length === 2");
    await hold(tab, "Delete", 3);
    await rest(tab);
    assert.deepEqual((await edits(tab)).sort(), ["delete bottom 0", "delete top 1"]);
  });
});

suite("a pick stays with its item", () => {
  test("through an undo after another pick", async () => {
    const tab = await withRow();
    await pickPad(tab, 3);
    await tab.key("Delete");
    await rest(tab);
    await pickPad(tab, 6);
    await tab.key("z", CTRL);
    await rest(tab);
    assert.deepEqual(await picks(tab), [`6 ${words(6)}`]);
    await tab.key("y", CTRL);
    await rest(tab);
    assert.deepEqual(await picks(tab), [`5 ${words(6)}`]);
    await tab.key("x");
    await rest(tab);
    assert.equal((await edits(tab)).at(-1), "polarity top 5 clear");
  });

  test("through an undo of an insertion in front of it", async () => {
    const tab = await withRow();
    await type(tab, "insert top 0 flash 10 0 9000000 r0 dark");
    await clickPad(tab, 4);
    await tab.wait("camplot.state.picked.length === 1");
    assert.deepEqual(await picks(tab), [`5 ${words(4)}`]);
    await tab.key("z", CTRL);
    await rest(tab);
    assert.deepEqual(await picks(tab), [`4 ${words(4)}`]);
  });

  for (const [what, lines, place] of [
    ["insertions in front of it", ["insert top 0 flash 10 0 5000000 r0 dark", "insert top 2 flash 10 0 6000000 r0 dark"], 6],
    ["a deletion in front of it", ["delete top 1"], 3],
    ["a deletion behind it", ["delete top 8"], 4],
    ["another's new place in front of it", ["reorder top 7 0"], 5],
    ["another's new place behind it", ["reorder top 0 7"], 3],
    ["its own new place", ["reorder top 4 9"], 9],
    ["a group that is aborted", ["begin", "delete top 0", "delete top 0", "abort"], 4],
    ["a group", ["begin", "delete top 0", "insert top 0 flash 10 0 7000000 r0 dark", "reorder top 0 9", "end"], 3],
    ["an undo and a redo", ["delete top 2", "undo", "redo"], 3],
    ["a refused line", ["delete top 99", "insert top 99 flash 10 0 0 r0 dark"], 4],
  ]) {
    test(`through ${what}`, async () => {
      const tab = await withRow();
      await pickPad(tab, 4);
      await type(tab, ...lines);
      assert.deepEqual(await picks(tab), [`${place} ${words(4)}`]);
    });
  }

  test("and is let go where that is deleted, also by an undo", async () => {
    const tab = await withRow();
    await pickPad(tab, 4);
    await type(tab, "delete top 4");
    assert.deepEqual(await picks(tab), []);
    await type(tab, "insert top 0 flash 10 0 3000000 r0 dark");
    await tab.click(...await onPage(tab, 0, 3000000));
    await rest(tab);
    assert.deepEqual(await picks(tab), ["0 flash 10 0 3000000 r0 dark"]);
    await tab.key("z", CTRL);
    await rest(tab);
    assert.deepEqual(await picks(tab), []);
  });
});

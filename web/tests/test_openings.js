// Openings at once, questions at once, and what an opening takes away.

import assert from "node:assert/strict";
import { join } from "node:path";
import { CTRL, EXAMPLES, filesOf, gerber } from "./support.js";
import { answer, onDisk, openFiles, press, toBoard, typeLine } from "./hands.js";
import { rest, seen } from "./seen.js";
import { ran, saving, unzipped } from "./saving.js";
import { suite, test } from "../../tools/tests/harness.js";
import { tabs } from "./tab.js";

const open = tabs();
const pathsOf = (name) => filesOf(join(EXAMPLES, name)).map((file) => join(EXAMPLES, name, file.name));
const layers = async (tab) => (await seen(tab)).layers.map(({ name, items }) => `${name} ${items}`);

async function type(tab, ...lines) {
  for (const line of lines) await typeLine(tab, line);
  await rest(tab);
  await toBoard(tab);
}

// What the saved script's program has: each layer with its items, and whether a line was refused.
async function outside(tab) {
  const files = unzipped((await saving(tab, () => tab.key("e", CTRL))).bytes), script = files.get("script").toString("latin1");
  const names = script.split("\n").filter((line) => line.startsWith("load ")).map((line) => line.split(" ")[1]);
  files.set("script", Buffer.from(`${script}${names.map((name) => `list ${name}\n`).join("")}`, "latin1"));
  const { replies, status } = ran(files, ["script", "--depth", "1000"]);
  assert.equal(status, 0, `${script}${replies.join("\n")}`);
  return names.map((name, at) => `${name} ${replies[replies.length - names.length + at].split(" ")[1]}`).sort();
}

async function isWhole(tab) {
  assert.deepEqual((await layers(tab)).sort(), await outside(tab));
  const shown = await layers(tab);
  await tab.reload();
  await rest(tab);
  assert.deepEqual(await layers(tab), shown);
  assert.deepEqual((await layers(tab)).sort(), await outside(tab));
  assert.deepEqual(tab.complaints(), []);
}

suite("openings at once", () => {
  test("two boards", async () => {
    const tab = await open();
    await Promise.all([openFiles(tab, pathsOf("kicad")), openFiles(tab, pathsOf("kicad_angles"))]);
    await tab.wait("camplot.state.layers.length >= 8", 60);
    await rest(tab);
    for (let turn = 0; turn < 8 && (await seen(tab)).question; turn++) {
      await answer(tab, /^(Convert|Open)/);
      await rest(tab);
    }
    assert.equal((await layers(tab)).length, 12);
    await isWhole(tab);
  });

  test("files of one name keep each its bytes", async () => {
    const tab = await open();
    const one = onDisk({ "a.gtl": gerber("X0Y0D03*") }), other = onDisk({ "a.gtl": gerber("X0Y0D03*", "X5000000Y0D03*") });
    await Promise.all([openFiles(tab, one), openFiles(tab, other), openFiles(tab, one)]);
    await tab.wait("camplot.state.layers.length >= 3", 60);
    await rest(tab);
    assert.deepEqual((await layers(tab)).map((words) => words.split(" ")[1]).sort(), ["1", "1", "2"]);
    await isWhole(tab);
  });

  test("a line that is typed meanwhile", async () => {
    const tab = await open();
    await openFiles(tab, onDisk({ "a.gtl": gerber("X0Y0D03*") }));
    await tab.wait("camplot.state.layers.length === 1");
    await press(tab, "#line");
    await tab.type("load again gerber files/a.gtl");
    await Promise.all([openFiles(tab, pathsOf("kicad")), tab.key("Enter")]);
    await tab.wait("camplot.state.layers.length >= 10", 60);
    await rest(tab);
    await toBoard(tab);
    assert.equal((await layers(tab)).length, 10);
    await isWhole(tab);
  });

  test("a load that is typed is named by its own words", async () => {
    const tab = await open();
    await openFiles(tab, onDisk({ "a.gtl": gerber("X0Y0D03*") }));
    await tab.wait("camplot.state.layers.length === 1");
    await press(tab, "#line");
    for (const name of ["one", "two", "three"]) {
      await tab.type(`load ${name} gerber files/a.gtl`);
      tab.key("Enter");
      await openFiles(tab, onDisk({ [`${name}.gbl`]: gerber("X0Y0D03*", "X5000000Y0D03*") }));
    }
    await tab.wait("camplot.state.layers.length >= 7", 60);
    await rest(tab);
    await toBoard(tab);
    const { layers: shown } = await seen(tab);
    for (const { name, label, items } of shown) {
      assert.equal(items, /^(top|one|two|three)$/.test(name) ? 1 : 2, name);
      if (/^(one|two|three)$/.test(name)) assert.doesNotMatch(label, /bottom/, `${name} is called ${label}`);
    }
  });

  test("an undo while the page plays what it has kept", async () => {
    const tab = await open();
    await openFiles(tab, pathsOf("kicad"));
    await tab.wait("camplot.state.layers.length === 8");
    for (let k = 0; k < 20; k++) await typeLine(tab, `move top ${k} 1000 0`);
    await rest(tab);
    await tab.reload(false);
    for (let turn = 0; turn < 40; turn++) await tab.key("z", CTRL);
    await tab.arrive();
    await rest(tab);
    await isWhole(tab);
  });
});

suite("questions", () => {
  const old = (number) => ({ [`old${number}.g${number === 1 ? "tl" : "bl"}`]: "%FSLAX36Y36*MOMM*%\n%ADD10C,1.0*%\nG54D10*\nX0Y0D03*\nM00*\n" });

  test("a second one waits for the first", async () => {
    const tab = await open();
    await openFiles(tab, onDisk(old(1)));
    await tab.wait("document.getElementById('question').open", 60);
    assert.match((await seen(tab)).question.title, /old1/);
    await openFiles(tab, onDisk(old(2)));
    await rest(tab);
    assert.match((await seen(tab)).question.title, /old1/);
    await answer(tab, /Convert/);
    await tab.wait("/old2/.test(document.getElementById('question-title').textContent) && document.getElementById('question').open", 60);
    await answer(tab, /Convert/);
    await tab.wait("camplot.state.layers.length === 2", 60);
    await rest(tab);
    assert.deepEqual((await layers(tab)).sort(), ["bottom 1", "top 1"]);
    await isWhole(tab);
  });

  test("a load is asked for before it takes the history away", async () => {
    const tab = await open();
    await openFiles(tab, onDisk({ "a.gtl": gerber("X0Y0D03*", "X5000000Y0D03*") }));
    await tab.wait("camplot.state.layers.length === 1");
    await type(tab, "move top 0 1000 0", "move top 0 1000 0", "undo");
    const other = onDisk({ "b.gbl": gerber("X0Y0D03*") });
    await openFiles(tab, other);
    await tab.wait("document.getElementById('question').open", 60);
    await tab.key("Escape");
    await rest(tab);
    assert.match((await seen(tab)).history, /1 to undo, 1 to redo/);
    assert.equal((await seen(tab)).layers.length, 1);
    await openFiles(tab, other);
    await tab.wait("document.getElementById('question').open", 60);
    await answer(tab, /^Open/);
    await tab.wait("camplot.state.layers.length === 2", 60);
    await rest(tab);
    assert.match((await seen(tab)).history, /0 to undo, 0 to redo/);
    await isWhole(tab);
  });

  test("a load that is typed is asked for too", async () => {
    const tab = await open();
    await openFiles(tab, onDisk({ "a.gtl": gerber("X0Y0D03*") }));
    await tab.wait("camplot.state.layers.length === 1");
    await type(tab, "move top 0 1000 0");
    await typeLine(tab, "load again gerber files/a.gtl");
    await tab.wait("document.getElementById('question').open", 60);
    await tab.key("Escape");
    await rest(tab);
    assert.match((await seen(tab)).history, /1 to undo/);
  });

  test("nothing is asked where there is no history", async () => {
    const tab = await open();
    await openFiles(tab, onDisk({ "a.gtl": gerber("X0Y0D03*") }));
    await tab.wait("camplot.state.layers.length === 1");
    await openFiles(tab, onDisk({ "b.gbl": gerber("X0Y0D03*") }));
    await tab.wait("camplot.state.layers.length === 2");
    await rest(tab);
    assert.equal((await seen(tab)).question, null);
  });
});

suite("what is not saved", () => {
  test("nothing, once all is undone", async () => {
    const tab = await open();
    await openFiles(tab, onDisk({ "a.gtl": gerber("X0Y0D03*") }));
    await tab.wait("camplot.state.layers.length === 1");
    await type(tab, "move top 0 1000 0", "move top 0 2000 0");
    assert.match((await seen(tab)).unsaved, /2 unsaved changes/);
    await type(tab, "undo", "undo");
    assert.equal((await seen(tab)).unsaved, "all saved");
    await type(tab, "redo");
    assert.match((await seen(tab)).unsaved, /1 unsaved change$/);
  });

  test("an undo of what was saved", async () => {
    const tab = await open();
    await openFiles(tab, onDisk({ "a.gtl": gerber("X0Y0D03*") }));
    await tab.wait("camplot.state.layers.length === 1");
    await type(tab, "move top 0 1000 0");
    await saving(tab, () => tab.key("s", CTRL));
    await rest(tab);
    assert.equal((await seen(tab)).unsaved, "all saved");
    await tab.key("z", CTRL);
    await rest(tab);
    assert.match((await seen(tab)).unsaved, /1 unsaved change$/);
    await tab.key("y", CTRL);
    await rest(tab);
    assert.equal((await seen(tab)).unsaved, "all saved");
  });
});

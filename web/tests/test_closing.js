// Layers and boards that are closed: what is gone, what stays, and what an undo does then.

import assert from "node:assert/strict";
import { CTRL, gerber, settle } from "./support.js";
import { answer, drop, onDisk, press, toBoard, typeLine } from "./hands.js";
import { layerTexts, ran, saving, unzipped } from "./saving.js";
import { linesNow, rest, scriptNow, seen } from "./seen.js";
import { suite, test } from "../../tools/tests/harness.js";
import { tabs } from "./tab.js";
import { without } from "../machine/closing.js";

const open = tabs();
const pads = (count) => gerber(...Array.from({ length: count }, (_, at) => `X${at * 2000000}Y0D03*`));
const names = async (tab) => (await seen(tab)).layers.map(({ name }) => name);

async function withLayers(files = { "a.gtl": pads(3), "b.gbl": pads(4), "c.gto": pads(5) }) {
  const tab = await open();
  await drop(tab, onDisk(files));
  await tab.wait(`camplot.state.layers.length === ${Object.keys(files).length}`, 60);
  await rest(tab);
  await tab.ask("document.getElementById('layer-panel').open = true");
  return tab;
}

async function type(tab, ...lines) {
  for (const line of lines) await typeLine(tab, line);
  await rest(tab);
  await toBoard(tab);
}

async function close(tab, name) {
  const at = (await seen(tab)).layers.reverse().findIndex((layer) => layer.name === name);
  await press(tab, "#layers .name", at);
  await rest(tab);
  await press(tab, "#layer-close");
  await rest(tab);
}

// The program makes the page's layers of the saved script.
async function isAsTheProgram(tab) {
  const { layers } = await seen(tab), files = unzipped((await saving(tab, () => tab.key("e", CTRL))).bytes);
  const script = `${files.get("script").toString("latin1")}${layers.map(({ name }) => `list ${name}\n`).join("")}list\n`;
  const { status, replies } = ran(new Map([...files, ["script", Buffer.from(script, "latin1")]]), ["script", "--depth", "1000"]);
  assert.equal(status, 0, `${script}${replies.join("\n")}`);
  const told = replies.slice(-layers.length - 1);
  assert.deepEqual(told.slice(0, -1).map((reply) => Number(reply.split(" ")[1])), layers.map(({ items }) => items));
  const [, count, done, undone] = told[layers.length].split(" ").map(Number);
  assert.equal(count, layers.length);
  assert.match((await seen(tab)).history, new RegExp(`^${done} to undo, ${undone} to redo$`));
  return files;
}

suite("a layer that is closed", () => {
  test("is gone from the panels, the pictures, the script and what is saved", async () => {
    const tab = await withLayers();
    await press(tab, "#layers .only", 2);
    await settle(tab);
    await close(tab, "bottom");
    assert.deepEqual(await names(tab), ["top", "top-silk"]);
    assert.equal((await seen(tab)).told, "bottom copper is closed.");
    assert.equal((await seen(tab)).question, null);
    await settle(tab);
    assert.deepEqual(await tab.ask("[...camplot.view.pictures.keys()].filter((name) => name === 'bottom')"), []);
    assert.equal(await tab.ask("[...document.querySelectorAll('#first option')].some(({ value }) => value === 'bottom')"), false);
    assert.doesNotMatch(await scriptNow(tab), /bottom/);
    const files = await isAsTheProgram(tab);
    assert.deepEqual([...files.keys()].filter((name) => name.startsWith("files/")), ["files/a.gtl", "files/c.gto"]);
    assert.deepEqual([...(await layerTexts(tab, (await saving(tab, () => tab.key("s", CTRL))).bytes)).keys()].sort(), ["top", "top-silk"]);
    await tab.reload();
    await rest(tab);
    assert.deepEqual(await names(tab), ["top", "top-silk"]);
    // It can be opened again, under its name.
    await drop(tab, onDisk({ "b.gbl": pads(4) }));
    await tab.wait("camplot.state.layers.length === 3", 60);
    await rest(tab);
    assert.deepEqual((await names(tab)).sort(), ["bottom", "top", "top-silk"]);
    await isAsTheProgram(tab);
    assert.deepEqual(tab.complaints(), []);
  });

  test("with changes that are not saved is asked about", async () => {
    const tab = await withLayers();
    await type(tab, "move bottom 0 1000 0", "move bottom 1 1000 0", "move top 0 1000 0");
    await close(tab, "bottom");
    assert.equal((await seen(tab)).question.title, "Close bottom copper?");
    assert.match((await seen(tab)).question.body, /It has 2 changes that are not saved/);
    await tab.key("Escape");
    await rest(tab);
    assert.equal((await names(tab)).length, 3);
    await press(tab, "#layer-close");
    await answer(tab, /^Leave/);
    await rest(tab);
    assert.equal((await names(tab)).length, 3);
    await press(tab, "#layer-close");
    await answer(tab, /^Close/);
    await rest(tab);
    assert.deepEqual(await names(tab), ["top", "top-silk"]);
    assert.match((await seen(tab)).history, /^1 to undo, 0 to redo$/);
    assert.match((await seen(tab)).unsaved, /^1 unsaved change$/);
    // One whose changes are saved is not.
    await saving(tab, () => tab.key("s", CTRL));
    await rest(tab);
    await close(tab, "top");
    assert.deepEqual(await names(tab), ["top-silk"]);
    assert.deepEqual(tab.complaints(), []);
  });

  test("takes its steps out of the history, and an undo does what it did", async () => {
    const tab = await withLayers();
    const textsNow = async () => Object.fromEntries([...await layerTexts(tab, (await saving(tab, () => tab.key("s", CTRL))).bytes)]
      .map(([name, text]) => [name, text.toString("latin1")]));
    await type(tab, "move top 0 1000 0", "begin", "move top 1 2000 0", "move bottom 1 2000 0", "end", "move bottom 0 7 7",
      "delete top-silk 0", "begin", "delete bottom 0", "end", "undo", "undo", "redo");
    const before = await textsNow();
    await close(tab, "bottom");
    if ((await seen(tab)).question) await answer(tab, /^Close/);
    await rest(tab);
    const { bottom, ...others } = before;
    assert.ok(bottom.length > 0);
    assert.deepEqual(await textsNow(), others);
    assert.match((await seen(tab)).history, /^3 to undo/);
    await isAsTheProgram(tab);
    // Back through all of them, and on again.
    for (const back of [2, 1, 0]) {
      await tab.key("z", CTRL);
      await rest(tab);
      assert.match((await seen(tab)).history, new RegExp(`^${back} to undo`));
    }
    assert.ok(Object.values(await textsNow()).every((text) => !/X0\.001|X0001/.test(text)));
    for (let step = 0; step < 3; step++) await tab.key("y", CTRL);
    await rest(tab);
    assert.deepEqual(await textsNow(), others);
    await isAsTheProgram(tab);
  });

  test("is not closed while a group is open", async () => {
    const tab = await withLayers();
    await type(tab, "begin", "move top 0 1000 0");
    await close(tab, "bottom");
    assert.match((await seen(tab)).told, /A group is open: end it first\./);
    assert.equal((await names(tab)).length, 3);
  });

  test("what is picked of others stays picked", async () => {
    const tab = await withLayers();
    await tab.ask("camplot.pickPlace('top', 1)");
    await rest(tab);
    await close(tab, "top-silk");
    assert.equal((await seen(tab)).picked.head, "top 1");
    await tab.key("ArrowRight");
    await rest(tab);
    assert.match((await linesNow(tab)).pop(), /^move top 1 /);
  });
});

suite("a board that is closed", () => {
  test("leaves an empty page, in which another one is opened", async () => {
    const tab = await withLayers();
    await press(tab, "[data-act=close-board]");
    await rest(tab);
    assert.deepEqual([await names(tab), await scriptNow(tab), (await seen(tab)).told], [[], "", "The board is closed: 3 layers."]);
    assert.equal(await tab.ask("document.getElementById('nothing').hidden"), false);
    await tab.reload();
    await rest(tab);
    assert.deepEqual(await names(tab), []);
    await drop(tab, onDisk({ "b.gbl": pads(4) }));
    await tab.wait("camplot.state.layers.length === 1", 60);
    await rest(tab);
    await isAsTheProgram(tab);
    assert.deepEqual(tab.complaints(), []);
  });

  test("with changes that are not saved is asked about", async () => {
    const tab = await withLayers();
    await type(tab, "move bottom 0 1000 0");
    await press(tab, "[data-act=close-board]");
    await rest(tab);
    assert.equal((await seen(tab)).question.title, "Close the board?");
    await tab.key("Escape");
    await rest(tab);
    assert.equal((await names(tab)).length, 3);
    await press(tab, "[data-act=close-board]");
    await answer(tab, /^Close/);
    await rest(tab);
    assert.deepEqual(await names(tab), []);
  });
});

suite("a script without a layer", () => {
  const entries = (...lines) => lines.map((line) => ({ line, reply: "ok" }));
  const left = (...lines) => without(entries(...lines), "b").map(({ line }) => line);

  test("has no step of it, and no undo or redo of such a step", () => {
    assert.deepEqual(left("load a gerber x", "load b gerber y", "move a 0 1 1", "move b 0 1 1", "undo", "redo", "undo", "undo", "redo"),
      ["load a gerber x", "move a 0 1 1", "undo", "redo"]);
    assert.deepEqual(left("begin", "move a 0 1 1", "move b 0 1 1", "end", "undo"), ["begin", "move a 0 1 1", "end", "undo"]);
    assert.deepEqual(left("begin", "move b 0 1 1", "end", "undo", "move a 0 1 1"), ["move a 0 1 1"]);
    assert.deepEqual(left("begin", "move b 0 1 1", "abort", "plot b x", "write a y", "window 1 2 3 4 5", "redraw 3"),
      ["write a y", "window 1 2 3 4 5", "redraw 3"]);
  });

  test("keeps what was refused of others, and what names it by chance", () => {
    const told = [{ line: "move b 9 1 1", reply: "refused 61" }, { line: "move a 9 1 1", reply: "refused 61" }, { line: "# b", reply: "" },
      { line: "window b", reply: "refused 80" }];
    assert.deepEqual(without(told, "b").map(({ line }) => line), ["move a 9 1 1", "# b", "window b"]);
  });
});

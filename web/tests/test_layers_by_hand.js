// What a person sets of a layer: its name, what it shows, its colour, its place in the pile.

import assert from "node:assert/strict";
import { CTRL, SHIFT, gerber } from "./support.js";
import { drop, onDisk, press, toBoard } from "./hands.js";
import { layerTexts, ran, saving, unzipped } from "./saving.js";
import { linesNow, rest, seen } from "./seen.js";
import { suite, test } from "../../tools/tests/harness.js";
import { tabs } from "./tab.js";

const open = tabs();
const pads = (count) => gerber(...Array.from({ length: count }, (_, at) => `X${at * 2000000}Y0D03*`));
const DRILL = "M48\nMETRIC\nT1C1.0\n%\nG05\nT1\nX0.0Y0.0\nM30\n";
const pile = async (tab) => (await seen(tab)).layers.map(({ name, label }) => `${name}: ${label}`);
const colourOf = (tab, name) => tab.ask(`camplot.state.layers.find((layer) => layer.name === "${name}").colour`);

async function withLayers(files) {
  const tab = await open();
  await drop(tab, onDisk(files));
  await tab.wait(`camplot.state.layers.length === ${Object.keys(files).length}`, 60);
  await rest(tab);
  await tab.ask("document.getElementById('layer-panel').open = true");
  return tab;
}

async function chosen(tab, name) {
  const at = (await seen(tab)).layers.reverse().findIndex((layer) => layer.name === name);
  await press(tab, "#layers .name", at);
  await rest(tab);
}

// Writes a name in the field, by the keyboard.
async function called(tab, label) {
  await press(tab, "#layer-label");
  await tab.ask("document.getElementById('layer-label').select()");
  await tab.type(label);
  await tab.key("Enter");
  await rest(tab);
  await toBoard(tab);
}

// Chooses what the layer shows by typing the beginning of its words, as one does in a list of choices.
async function shows(tab, label) {
  await tab.ask(`(() => { const choice = document.getElementById("layer-function");
    choice.value = [...choice.options].find(({ textContent }) => textContent === ${JSON.stringify(label)}).value;
    choice.dispatchEvent(new Event("change", { bubbles: true })); })()`);
  await rest(tab);
}

const again = async (tab) => {
  await tab.reload();
  await rest(tab);
  await tab.ask("document.getElementById('layer-panel').open = true");
};

suite("a layer's name on the page", () => {
  test("is written, kept, and taken back by an empty one", async () => {
    const tab = await withLayers({ "a.gtl": pads(3), "b.gbl": pads(2) });
    await chosen(tab, "top");
    await called(tab, "copper <b>front</b>");
    assert.deepEqual(await pile(tab), ["bottom: bottom copper", "top: copper <b>front</b>"]);
    assert.equal(await tab.ask("document.querySelectorAll('#layers b b').length"), 0);
    await again(tab);
    assert.deepEqual(await pile(tab), ["bottom: bottom copper", "top: copper <b>front</b>"]);
    await called(tab, " ");
    assert.deepEqual(await pile(tab), ["bottom: bottom copper", "top: top copper"]);
    assert.deepEqual((await linesNow(tab)).filter((line) => !line.startsWith("load")), []);
    assert.deepEqual(tab.complaints(), []);
  });
});

suite("what a layer shows", () => {
  test("is a line for a Gerber layer, is saved with its text, and an undo takes it back", async () => {
    const tab = await withLayers({ "a.gtl": pads(3), "b.gbl": pads(2), "what.gbr": pads(4) });
    assert.deepEqual(await pile(tab), ["bottom: bottom copper", "top: top copper", "other: what"]);
    await chosen(tab, "other");
    const before = await colourOf(tab, "other");
    await shows(tab, "inner copper 2");
    assert.deepEqual(await pile(tab), ["bottom: bottom copper", "other: inner copper 2", "top: top copper"]);
    assert.notEqual(await colourOf(tab, "other"), before);
    assert.deepEqual((await linesNow(tab)).filter((line) => !line.startsWith("load")), ["setattr other .FileFunction Copper,L3,Inr"]);
    assert.match((await seen(tab)).unsaved, /^1 unsaved change$/);
    const { bytes } = await saving(tab, () => tab.key("s", CTRL)), text = (await layerTexts(tab, bytes)).get("other").toString("latin1");
    assert.match(text, /%TF\.FileFunction,Copper,L3,Inr\*%/);
    await again(tab);
    assert.deepEqual(await pile(tab), ["bottom: bottom copper", "other: inner copper 2", "top: top copper"]);
    await tab.key("z", CTRL);
    await rest(tab);
    assert.deepEqual(await pile(tab), ["bottom: bottom copper", "top: top copper", "other: what"]);
    assert.equal(await colourOf(tab, "other"), before);
    await tab.key("y", CTRL);
    await rest(tab);
    assert.deepEqual(await pile(tab), ["bottom: bottom copper", "other: inner copper 2", "top: top copper"]);
    // The text that was saved is known by it when it is opened.
    const other = await open();
    await drop(other, onDisk({ "board.zip": bytes }));
    await other.wait("camplot.state.layers.length === 3", 60);
    await rest(other);
    assert.deepEqual(await pile(other), ["bottom: bottom copper", "in2: inner copper 2", "top: top copper"]);
    assert.deepEqual(tab.complaints(), []);
  });

  test("leaves alone what a person chose", async () => {
    const tab = await withLayers({ "a.gtl": pads(3), "what.gbr": pads(4) });
    await chosen(tab, "other");
    await called(tab, "my layer");
    await tab.ask(`(() => { const input = document.querySelector("#layers li.active input[type=color]"); input.value = "#123456";
      input.dispatchEvent(new Event("input")); })()`);
    await shows(tab, "bottom copper");
    assert.deepEqual(await pile(tab), ["other: my layer", "top: top copper"]);
    assert.equal(await colourOf(tab, "other"), "#123456");
    await tab.key("z", CTRL);
    await rest(tab);
    assert.deepEqual(await pile(tab), ["top: top copper", "other: my layer"]);
    assert.equal(await colourOf(tab, "other"), "#123456");
  });

  test("a second one of a kind is told apart, and a typed line counts too", async () => {
    const tab = await withLayers({ "a.gtl": pads(3), "what.gbr": pads(4) });
    await chosen(tab, "other");
    await shows(tab, "top copper");
    assert.deepEqual((await pile(tab)).sort(), ["other: top copper (what.gbr)", "top: top copper"]);
    await press(tab, "#line");
    await tab.type("setattr top .FileFunction Legend,Bot");
    await tab.key("Enter");
    await rest(tab);
    await toBoard(tab);
    assert.deepEqual((await pile(tab)).sort(), ["other: top copper (what.gbr)", "top: bottom silkscreen"]);
  });

  test("of a drill layer is the page's alone, and kept", async () => {
    const tab = await withLayers({ "a.drl": DRILL, "b.gtl": pads(3) });
    await chosen(tab, "holes");
    await shows(tab, "plated holes");
    assert.deepEqual(await pile(tab), ["top: top copper", "holes: plated holes"]);
    assert.deepEqual((await linesNow(tab)).filter((line) => !line.startsWith("load")), []);
    assert.equal((await seen(tab)).unsaved, "all saved");
    await again(tab);
    assert.deepEqual(await pile(tab), ["top: top copper", "holes: plated holes"]);
  });
});

suite("the place in the pile", () => {
  test("is changed by buttons and keys, is seen, and kept", async () => {
    const tab = await withLayers({ "a.gtl": pads(3), "b.gbl": pads(3), "c.gto": pads(3) });
    const names = async () => (await seen(tab)).layers.map(({ name }) => name);
    await chosen(tab, "bottom");
    await press(tab, "#layer-up");
    await rest(tab);
    assert.deepEqual(await names(), ["top", "bottom", "top-silk"]);
    await tab.key("PageUp", SHIFT);
    await rest(tab);
    assert.deepEqual(await names(), ["top", "top-silk", "bottom"]);
    assert.equal(await tab.ask("document.getElementById('layer-up').disabled"), true);
    // What lies on top is picked first.
    await toBoard(tab);
    await tab.key("0");
    await rest(tab);
    const [x, y] = JSON.parse(await tab.ask(`(() => { const box = document.getElementById("marks").getBoundingClientRect(), at = camplot.view.placeOf(0, 0);
      return JSON.stringify([box.left + at.x, box.top + at.y]); })()`));
    await tab.click(x, y);
    await rest(tab);
    assert.match((await seen(tab)).picked.head, /^bottom /);
    await again(tab);
    assert.deepEqual(await names(), ["top", "top-silk", "bottom"]);
    await tab.key("PageDown", SHIFT);
    await tab.key("PageDown", SHIFT);
    await tab.key("PageDown", SHIFT);
    await rest(tab);
    assert.deepEqual(await names(), ["bottom", "top", "top-silk"]);
    assert.deepEqual((await linesNow(tab)).filter((line) => !line.startsWith("load")), []);
    assert.deepEqual(tab.complaints(), []);
  });
});

suite("the saved script", () => {
  test("with functions that were set is run by the program", async () => {
    const tab = await withLayers({ "a.gtl": pads(3), "what.gbr": pads(4) });
    await chosen(tab, "other");
    await shows(tab, "bottom solder mask");
    await saving(tab, () => tab.key("s", CTRL));
    const files = unzipped((await saving(tab, () => tab.key("e", CTRL))).bytes), { status, replies, read } = ran(files, ["script", "--depth", "1000"]);
    assert.equal(status, 0, replies.join("\n"));
    assert.match(read("written/other.gbr").toString("latin1"), /%TF\.FileFunction,Soldermask,Bot\*%/);
  });
});

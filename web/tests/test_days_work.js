// A day's work at a board, by clicks and keys, as docs/page.md tells it: a ZIP file opened, a connector moved with its tracks, a
// row of test points, a text taken off the silk screen, all compared, and saved under the old names. The program then runs the
// saved script, and writes the same bytes.

import assert from "node:assert/strict";
import { CTRL, SHIFT, clickAt, kicad, onPage, picked } from "./support.js";
import { answer, drop, middleOf, onDisk, press, saveBare, toBoard } from "./hands.js";
import { archive } from "./archives.js";
import { layerTexts, ran, saving, unzipped } from "./saving.js";
import { linesNow, rest, seen } from "./seen.js";
import { suite, test } from "../../tools/tests/harness.js";
import { tabs } from "./tab.js";

const open = tabs();

async function key(tab, name, modifiers = 0) {
  await toBoard(tab);
  await tab.key(name, modifiers);
  await rest(tab);
}

// Types a value into a field in place of what it has.
async function fill(tab, id, value) {
  await tab.click(...await middleOf(tab, `#${id}`));
  await tab.ask(`document.getElementById("${id}").select()`);
  await tab.type(value);
}

const rowOf = async (tab, name) => (await seen(tab)).layers.reverse().findIndex((layer) => layer.name === name);

async function show(tab, name) {
  await press(tab, "#layers input[type=checkbox]", await rowOf(tab, name));
  await rest(tab);
}

// Chooses a layer in the list, and shows it alone.
async function alone(tab, name) {
  await press(tab, "#layers .name", await rowOf(tab, name));
  await rest(tab);
  await key(tab, "o");
}

suite("a day's work", () => {
  test("from a ZIP file to the texts under their old names, and by the program", async () => {
    const tab = await open(), came = kicad(), isNew = (from) => async () => (await linesNow(tab)).slice(from);

    await drop(tab, onDisk({ "nightlight.zip": archive(came.map(({ name, bytes }) => ({ name: `gerbers/${name}`, bytes, method: 8 }))) }));
    await tab.wait("camplot.state.layers.length === 8", 60);
    await rest(tab);

    // The connector: what lies in a box around it, its pads, their holes and the openings of the masks, and the track that
    // leaves it.
    for (const mask of ["top-mask", "bottom-mask"]) await show(tab, mask);
    await fill(tab, "grid", "0.5");
    await tab.key("Enter");
    await rest(tab);
    await key(tab, "v");
    await tab.drag(await onPage(tab, 102900000, -87400000), await onPage(tab, 105100000, -92600000));
    await rest(tab);
    await clickAt(tab, 105500000, -88730000, SHIFT);
    await rest(tab);
    const connector = await picked(tab);
    assert.ok(connector.every((item) => !/ region /.test(item)));
    for (const words of ["top 0 flash", "top 1 flash", "top 17 draw", "bottom 0 flash", "bottom 1 flash", "top-mask ", "bottom-mask ", "plated "]) {
      assert.ok(connector.some((item) => item.startsWith(words)), `${words} in ${connector}`);
    }
    const moved = isNew((await linesNow(tab)).length);
    await key(tab, "ArrowRight");
    const moves = (await moved()).filter((line) => line.startsWith("move "));
    assert.equal(moves.length, connector.length);
    assert.ok(moves.every((line) => line.endsWith(" 500000 0")), moves.join("; "));

    // A row of eight test points out of one.
    await alone(tab, "top");
    await clickAt(tab, 106500000, -96500000);
    await rest(tab);
    assert.match((await picked(tab)).join(), /^top 16 flash 16 /);
    const copied = isNew((await linesNow(tab)).length);
    await tab.key("k");
    await tab.wait("document.getElementById('question').open");
    for (const [id, value] of Object.entries({ columns: "8", rows: "1", dx: "1.27", dy: "0" })) await fill(tab, `array-${id}`, value);
    await answer(tab, /^Copy$/);
    await rest(tab);
    assert.equal((await copied()).filter((line) => line.startsWith("insert top ")).length, 7);
    assert.equal((await picked(tab)).length, 8);

    // All that the silk screen draws with its widest pen: a text.
    await alone(tab, "top-silk");
    await press(tab, "#apertures-panel summary");
    await tab.wait("document.querySelector('#apertures tbody tr') !== null", 60);
    const widest = await tab.ask("[...document.querySelectorAll('#apertures tbody tr')].findIndex((row) => /0\\.18/.test(row.textContent))");
    await press(tab, "#apertures .only", widest);
    await rest(tab);
    const text = await picked(tab);
    assert.ok(text.length > 20 && text.every((item) => item.startsWith("top-silk ")), text.length);
    const deleted = isNew((await linesNow(tab)).length);
    await key(tab, "Delete");
    assert.equal((await deleted()).filter((line) => line.startsWith("delete top-silk ")).length, text.length);

    // Compared whole with before the last step, and back.
    await key(tab, "C", SHIFT);
    await tab.wait("camplot.state.comparison !== null && !document.getElementById('compared').hidden", 60);
    await rest(tab);
    assert.match((await seen(tab)).compared, /differs in: top silk/i);
    await key(tab, "C", SHIFT);
    assert.equal(await tab.ask("camplot.state.comparison"), null);

    // Saved: the names that came, with what the program makes of the script.
    const saved = await saving(tab, () => saveBare(tab)), texts = await layerTexts(tab, saved.bytes);
    assert.deepEqual([...unzipped(saved.bytes).keys()].sort(), came.filter(({ name }) => !name.endsWith(".d356") && !name.endsWith(".md"))
      .map(({ name }) => `gerbers/${name}`).sort());
    const files = unzipped((await saving(tab, () => key(tab, "e", CTRL))).bytes), script = files.get("script").toString("latin1");
    const { status, replies, read } = ran(files, ["script", "--depth", "1000"]);
    assert.equal(status, 0, replies.join("\n"));
    for (const [name, bytes] of texts) {
      const path = script.split("\n").filter((line) => line.startsWith(`write ${name} `)).pop().split(" ")[2];
      assert.ok(read(path).equals(bytes), name);
    }
    assert.equal((await seen(tab)).unsaved, "all saved");
    assert.deepEqual(tab.complaints(), []);
  });
});

// The page and its module in Firefox and in WebKitGTK, each driven by clicks, drags and keys as a person works. What Chromium
// alone is tried for stands in the other files.

import assert from "node:assert/strict";
import { existsSync } from "node:fs";
import { inflateSync } from "node:zlib";
import { join } from "node:path";
import { CTRL, EXAMPLES, MODULE, PAD, SHIFT, clickAt, filesOf, gerber, last, onPage, pageForAny, picked, room, settle, text }
  from "./support.js";
import { Firefox } from "./firefox.js";
import { WebKit } from "./webkit.js";
import { answer, onDisk, press, saveBare, toBoard, typeLine } from "./hands.js";
import { blackBoxCases, differences, pageOfModules, randomScripts } from "./cases.js";
import { afterwards, skip, suite, test } from "../../tools/tests/harness.js";
import { layerTexts, ran, unzipped } from "./saving.js";
import { rest, scriptNow, seen } from "./seen.js";

const SCRIPTS = 50;
const BOARD = join(EXAMPLES, "kicad");
const LAYERS = ["bottom-mask", "bottom", "top", "top-mask", "top-silk", "outline", "nonplated", "plated"];

async function opened(Driver, path, folder = null) {
  const lacking = Driver.lacks();
  if (lacking) skip(`${Driver.title} is not at hand: Debian's package ${lacking} has it`);
  const browser = await Driver.open(path(), { folder });
  afterwards(() => browser.close());
  return browser;
}

// The page with files, about which it asks what `answering` answers.
async function withFiles(Driver, paths, folder = null, answering = () => {}) {
  const browser = await opened(Driver, pageForAny, folder);
  await browser.give("#files", paths);
  await answering(browser);
  await browser.wait(`camplot.state.layers.length === ${paths.length}`);
  await rest(browser);
  await settle(browser);
  return browser;
}

const boardPaths = () => filesOf(BOARD).map(({ name }) => join(BOARD, name));
const withPads = (Driver) => withFiles(Driver,
  onDisk({ "pads.gtl": gerber(...[0, 2, 4, 6].map((x) => `X${x}000000Y0D03*`)) }));

const convert = (browser) => answer(browser, /^Convert/);

const told = (browser) => browser.ask("camplot.told");
const lastLine = async (browser) => (await told(browser)).pop();
const layersOf = ({ layers }) => layers.map(({ name, items, isShown }) => `${name} ${items} ${isShown}`);

async function pressed(browser, key, modifiers = 0) {
  await browser.key(key, modifiers);
  await rest(browser);
  return (await picked(browser)).join("; ");
}

// How dark the picture of a layer is at a point in nm, from 0 to 255.
const darkness = (browser, name, x, y) => browser.ask(`(() => {
  const { bitmap, left, top, pitch } = camplot.view.pictures.get("${name}");
  const context = Object.assign(document.createElement("canvas"), { width: bitmap.width, height: bitmap.height }).getContext("2d");
  context.drawImage(bitmap, 0, 0);
  return context.getImageData(Math.floor((${x} - left) / pitch), Math.floor((top - ${y}) / pitch), 1, 1).data[3];
})()`);

// A pad is picked, moved, deleted and comes back, by clicks and keys alone; then lines are typed, one of them refused.
async function editByHand(browser) {
  await clickAt(browser, ...PAD);
  await rest(browser);
  assert.match((await picked(browser))[0], /^top 23 draw 18 117937500 -85000000 /);
  await clickAt(browser, ...PAD);
  await rest(browser);
  const pad = "top 6 flash 13 117937500 -85000000 r0 dark", grid = await browser.ask("camplot.state.grid");
  assert.deepEqual(await picked(browser), [pad]);
  assert.equal(await pressed(browser, "ArrowRight"), pad.replace("117937500", String(117937500 + grid)));
  assert.deepEqual(await lastLine(browser), { line: `move top 6 ${grid} 0`, reply: "ok" });
  assert.equal(await pressed(browser, "z", CTRL), pad);
  assert.equal(await pressed(browser, "z", CTRL | SHIFT), pad.replace("117937500", String(117937500 + grid)));
  const { items } = (await seen(browser)).layers.find(({ name }) => name === "top");
  assert.equal(await pressed(browser, "Delete"), "");
  assert.equal((await seen(browser)).layers.find(({ name }) => name === "top").items, items - 1);
  await pressed(browser, "z", CTRL);
  assert.equal((await seen(browser)).layers.find(({ name }) => name === "top").items, items);
  for (const line of ["move bottom 0 -10000 20000", "move nowhere 0 1 1", "list top", "list"]) await typeLine(browser, line);
  await rest(browser);
  await toBoard(browser);
  assert.deepEqual(last(await told(browser), 4).map(({ reply }) => reply.replace(/\d+/g, "N")),
    ["ok", "refused N", "ok N N", "ok N N N"]);
  return items;
}

// Plots of a resolution in a form, as a person asks for them.
const plots = (browser, form) => browser.saving(async () => {
  await browser.key("p", CTRL);
  await browser.wait("document.getElementById('question').open", 60);
  await browser.ask(`document.querySelectorAll("#question-body select").forEach((choice) => {
    for (const value of ["${form}", "shown"]) if ([...choice.options].some((option) => option.value === value)) choice.value = value; })`);
  await browser.ask("document.querySelectorAll('#question-body input').forEach((input) => { input.value = '150'; })");
  await answer(browser, /Save/);
});

// The rows of a PNG picture of one bit a pixel as a PBM file has them.
function rowsOf(png) {
  const width = png.readUInt32BE(16), height = png.readUInt32BE(20), stride = Math.ceil(width / 8), parts = [];
  for (let at = 8; at < png.length; at += 12 + png.readUInt32BE(at)) {
    if (png.toString("latin1", at + 4, at + 8) === "IDAT") parts.push(png.subarray(at + 8, at + 8 + png.readUInt32BE(at)));
  }
  const lines = inflateSync(Buffer.concat(parts));
  return Buffer.concat(Array.from({ length: height }, (_, row) =>
    lines.subarray(row * (stride + 1) + 1, (row + 1) * (stride + 1)).map((byte) => ~byte)));
}

// What the page saves is what the program makes of the script that it saves.
async function compareSaved(browser) {
  const shown = (await seen(browser)).layers.filter(({ isShown, items }) => isShown && items);
  const pictures = unzipped((await plots(browser, "pbm")).bytes), packed = unzipped((await plots(browser, "png")).bytes);
  const texts = await layerTexts(browser, (await browser.saving(() => saveBare(browser))).bytes);
  await rest(browser);
  const files = unzipped((await browser.saving(() => browser.key("e", CTRL))).bytes);
  const script = files.get("script").toString("latin1"), replies = (await told(browser)).filter(({ reply }) => !/^refused/.test(reply));
  assert.equal(script, await scriptNow(browser));
  const beside = ran(files, ["script", "--depth", "1000"]);
  // (a plot's reply counts its tiles, and the page draws some for its own views)
  const uncounted = ({ line, reply }) => line.startsWith("plot") ? "a plot" : reply;
  assert.deepEqual(beside.replies.map((reply, at) => uncounted({ line: replies[at]?.line ?? "", reply })), replies.map(uncounted));
  const pathOf = (verb, name) => script.split("\n").filter((line) => line.startsWith(`${verb} ${name} `)).pop().split(" ")[2];
  assert.equal(texts.size, LAYERS.length);
  for (const [name, bytes] of texts) assert.ok(beside.read(pathOf("write", name)).equals(bytes), name);
  assert.deepEqual([pictures.size, packed.size], [shown.length, shown.length]);
  for (const [name, bytes] of pictures) {
    assert.ok(beside.read(pathOf("plot", name.replace(/\.\w+$/, ""))).equals(bytes), name);
    const rows = rowsOf(packed.get(name.replace(/\.pbm$/, ".png")));
    assert.ok(bytes.subarray(bytes.length - rows.length).equals(rows), `${name} as PNG`);
  }
}

// The same board is there again.
async function compareKept(browser, before) {
  await rest(browser);
  await settle(browser);
  const after = await seen(browser);
  assert.deepEqual([layersOf(after), after.steps, after.kept], [layersOf(before), before.steps, ""]);
  assert.equal(await scriptNow(browser), before.script);
}

for (const Driver of [Firefox, WebKit]) {
  suite(Driver.title, () => {
    test("a board is edited by hand, saved as the program writes it, and there again after a reload", async () => {
      const browser = await withFiles(Driver, boardPaths());
      console.log(`page: ${Driver.title} ${browser.version}`);
      assert.deepEqual(await browser.ask("camplot.state.layers.map(({ name }) => name)"), LAYERS);
      const items = await editByHand(browser);
      await compareSaved(browser);
      const before = { ...await seen(browser), script: await scriptNow(browser) };
      assert.deepEqual([before.unsaved, before.kept], ["all saved", ""]);
      await browser.reload();
      await compareKept(browser, before);
      assert.equal(before.layers.find(({ name }) => name === "top").items, items);
      await pressed(browser, "z", CTRL);
      assert.equal((await lastLine(browser)).line, "undo");
      assert.deepEqual(await browser.complaints(), []);
    });

    test("pixels, drags, boxes, and what is drawn by the pointer", async () => {
      const browser = await withPads(Driver), at = (x, y) => onPage(browser, x, y);
      await browser.ask("(camplot.view.pitch = 12000, camplot.view.centre(2650000, 0))");
      await settle(browser);
      const dark = [];
      for (const [x, y] of [[0, 0], [485000, 5000], [515000, 5000], [1000000, 0]]) dark.push(await darkness(browser, "top", x, y));
      assert.deepEqual(dark, [255, 255, 0, 0]);
      await browser.drag(await at(-700000, -700000), await at(2700000, 700000));
      await rest(browser);
      assert.equal((await picked(browser)).length, 2);
      await clickAt(browser, 6000000, 0, SHIFT);
      await rest(browser);
      assert.deepEqual((await picked(browser)).map((words) => words.split(" ")[1]), ["0", "1", "3"]);
      const { grid } = await browser.ask("({ grid: camplot.state.grid })");
      await browser.drag(await at(2000000, 0), await at(2000000, 10 * grid));
      await rest(browser);
      assert.deepEqual(last(await told(browser), 5).map(({ line }) => line.replace(/ -?\d+ -?\d+$/, "")),
        ["begin", "move top 0", "move top 1", "move top 3", "end"]);
      await browser.key("1");
      await clickAt(browser, 3050000, 1050000);
      await rest(browser);
      assert.match((await lastLine(browser)).line, /^insert top 4 flash 10 3\d{6} 1\d{6} r0 dark$/);
      assert.deepEqual(await browser.complaints(), []);
    });

    test("an old file is converted after its question, and a step is compared with before", async () => {
      const old = "%FSLAX36Y36*MOMM*%\n%ADD10C,1.0*%\nG54D10*\nX0Y0D03*\nX5000000Y0D03*\nM00*\n";
      const browser = await withFiles(Driver, onDisk({ "old.gtl": old }), null, convert);
      assert.equal(await text(browser, "refused"), "");
      await pressed(browser, "a", CTRL);
      await pressed(browser, "Delete");
      await browser.key("C", SHIFT);
      await browser.wait("!document.getElementById('compared').hidden");
      assert.match(await text(browser, "compared-counts"), /top copper/);
      await browser.key("C", SHIFT);
      await rest(browser);
      assert.equal(await pressed(browser, "z", CTRL), "");
      assert.deepEqual((await seen(browser)).layers.map(({ name, items }) => [name, items]), [["top", 2]]);
      assert.deepEqual(await browser.complaints(), []);
    });

    test("what copper hangs together is found, in a worker of its own", async () => {
      const browser = await withFiles(Driver, boardPaths());
      await press(browser, "#nets-on");
      await browser.wait("/\\d/.test(document.getElementById('nets-count').textContent)");
      assert.match(await text(browser, "nets-count"), /\d+/);
      assert.deepEqual(await browser.complaints(), []);
    });

    test("the module's stations say and write what the program does", async () => {
      if (!existsSync(MODULE)) skip("web/out/station.wasm is not built");
      const browser = await opened(Driver, () => pageOfModules([[32, MODULE]]));
      const players = { [`${Driver.title} ${browser.version}`]: (cases) => browser.ask(`differencesOf(32, [${cases.join(",")}])`) };
      assert.deepEqual(await differences([...blackBoxCases(), ...randomScripts(SCRIPTS)], players), []);
    });
  });
}

suite("Firefox", () => {
  test("a board is there again after it was killed and started again", async () => {
    const folder = room(), browser = await withFiles(Firefox, boardPaths(), folder);
    await typeLine(browser, "move top 6 1000000 0");
    await rest(browser);
    const before = { ...await seen(browser), script: await scriptNow(browser) };
    await browser.kill();
    await compareKept(await opened(Firefox, pageForAny, folder), before);
  });
});

// ZIP files that a user drops on the page, or chooses; and the names under which texts are saved.

import assert from "node:assert/strict";
import { mkdirSync, readFileSync, writeFileSync } from "node:fs";
import { join } from "node:path";
import { CTRL, EXAMPLES, SHIFT, filesOf, gerber, room } from "./support.js";
import { archive } from "./archives.js";
import { choose, drop, onDisk, press, toBoard, typeLine } from "./hands.js";
import { layerTexts, ran, saving, unzipped } from "./saving.js";
import { linesNow, rest, seen } from "./seen.js";
import { suite, test } from "../../tools/tests/harness.js";
import { tabs } from "./tab.js";

const open = tabs();
const kicad = () => filesOf(join(EXAMPLES, "kicad"));
const names = async (tab) => (await seen(tab)).layers.map(({ name }) => name).sort();
const ALL = ["bottom", "bottom-mask", "nonplated", "outline", "plated", "top", "top-mask", "top-silk"];
const pads = (count) => gerber(...Array.from({ length: count }, (_, at) => `X${at * 2000000}Y0D03*`));

async function opened(tab, count) {
  await tab.wait(`camplot.state.layers.length >= ${count}`, 60);
  await rest(tab);
}

const zipped = (entries, name = "board.zip", more = {}) => onDisk({ [name]: archive(entries, more) });

async function allSaved(tab) {
  const { name, bytes } = await saving(tab, () => tab.key("s", CTRL));
  await rest(tab);
  return { name, files: unzipped(bytes), bytes };
}

// All texts are what the program writes of the saved script.
async function isAsTheProgram(tab) {
  const texts = await layerTexts(tab, (await allSaved(tab)).bytes), files = unzipped((await saving(tab, () => tab.key("e", CTRL))).bytes);
  const { status, replies, read } = ran(files, ["script", "--depth", "1000"]), script = files.get("script").toString("latin1");
  assert.equal(status, 0, replies.join("\n"));
  for (const [name, text] of texts) {
    const path = script.split("\n").filter((line) => line.startsWith(`write ${name} `)).pop().split(" ")[2];
    assert.ok(read(path).equals(text), name);
  }
  assert.equal(texts.size, (await seen(tab)).layers.length);
}

suite("a ZIP file", () => {
  test("that is dropped: its layers are opened as those of a folder", async () => {
    const tab = await open(), entries = kicad().map(({ name, bytes }, at) => ({ name: `gerbers/${name.endsWith("drl") ? "drill/" : ""}${name}`,
      bytes, method: at % 2 ? 0 : 8 }));
    await drop(tab, zipped([{ name: "gerbers/" }, ...entries, { name: "gerbers/README.md", bytes: Buffer.from("no layer\n") }]));
    await opened(tab, 8);
    assert.deepEqual(await names(tab), ALL);
    const { told, refused } = await seen(tab);
    assert.equal(told, "8 layers opened. 1 file left out: README.md.");
    assert.deepEqual(refused, []);
    // The same lines and files as a drop of the folder makes.
    const folder = await open(), path = join(room(), "gerbers");
    mkdirSync(join(path, "drill"), { recursive: true });
    for (const { name, bytes } of entries) writeFileSync(join(path, "..", name), bytes);
    await drop(folder, [path]);
    await opened(folder, 8);
    assert.deepEqual((await linesNow(tab)).sort(), (await linesNow(folder)).sort());
    const files = unzipped((await saving(tab, () => tab.key("e", CTRL))).bytes);
    for (const { name, bytes } of kicad()) assert.ok(files.get(`files/${name}`).equals(bytes), name);
    assert.deepEqual(tab.complaints(), []);
  });

  test("that is chosen in the dialogue, next to a file", async () => {
    const tab = await open();
    await choose(tab, "open", [...zipped([{ name: "a.gtl", bytes: pads(3) }]), ...onDisk({ "b.gbl": pads(2) })]);
    await opened(tab, 2);
    assert.deepEqual(await names(tab), ["bottom", "top"]);
    assert.deepEqual(tab.complaints(), []);
  });

  test("in a folder that is dropped, and two at once", async () => {
    const tab = await open(), folder = room();
    onDisk({ "one.zip": archive([{ name: "a.gtl", bytes: pads(3) }]), "two.zip": archive([{ name: "a.gbl", bytes: pads(4) }]), "c.gto": pads(1) }, folder);
    await drop(tab, [folder]);
    await opened(tab, 3);
    assert.deepEqual(await names(tab), ["bottom", "top", "top-silk"]);
  });

  test("a file in it that is refused, or asks, is listed as others are", async () => {
    const tab = await open();
    await drop(tab, zipped([{ name: "in/a.gtl", bytes: pads(3) }, { name: "in/bad.gbl", bytes: gerber("X0Y0D03*", "D99*") }]));
    await opened(tab, 1);
    const { told, refused } = await seen(tab);
    assert.match(told, /^1 layer opened\. 1 file refused, see the left side\.$/);
    assert.match(refused.join(), /bad\.gbl refused 9/);
  });

  test("that is broken takes nothing away: what can be read is opened, and the rest told", async () => {
    const tab = await open();
    await drop(tab, onDisk({ "mine.gtl": pads(2) }));
    await opened(tab, 1);
    await drop(tab, zipped([{ name: "good.gbl", bytes: pads(4) }, { name: "spoiled.gto", bytes: pads(3), crc: 1 },
      { name: "../out.gts", bytes: pads(1) }]));
    await opened(tab, 2);
    assert.deepEqual(await names(tab), ["bottom", "top"]);
    assert.equal((await seen(tab)).told, "1 layer opened. board.zip: spoiled.gto is not read: its packed bytes do not make the size and the checksum that the list says. "
      + "board.zip: ../out.gts is not read: its name is no path in the archive.");
    const whole = archive([{ name: "x.gts", bytes: pads(40) }]);
    await drop(tab, onDisk({ "half.zip": whole.subarray(0, whole.length - 30) }));
    await tab.wait("/half/.test(document.getElementById('told').textContent)", 60);
    await rest(tab);
    assert.equal((await seen(tab)).told, "half.zip is not read: it has no end, so it is not whole.");
    assert.deepEqual(await names(tab), ["bottom", "top"]);
    await isAsTheProgram(tab);
    assert.deepEqual(tab.complaints(), []);
  });

  test("is asked about before it takes the history away, and left closed", async () => {
    const tab = await open();
    await drop(tab, onDisk({ "a.gtl": pads(2) }));
    await opened(tab, 1);
    await typeLine(tab, "move top 0 1000 0");
    await rest(tab);
    await toBoard(tab);
    await drop(tab, zipped([{ name: "a.gbl", bytes: pads(2) }, { name: "b.gto", bytes: pads(2) }]));
    await tab.wait("document.getElementById('question').open", 60);
    await tab.key("Escape");
    await rest(tab);
    assert.match((await seen(tab)).told, /2 files left closed/);
    assert.match((await seen(tab)).history, /1 to undo/);
  });

  test("of 20 layers is open in time", async () => {
    const tab = await open(), made = Array.from({ length: 20 }, (_, at) => ({ name: at === 0 ? "board/board-F_Cu.gbr" : `board/board-In${at}_Cu.gbr`,
      bytes: gerber(...Array.from({ length: 5000 }, (_point, place) => `X${place % 100 * 1000000}Y${(place / 100 | 0) * 1000000 + at * 20000}D03*`)) }));
    const path = zipped(made), since = Date.now();
    await drop(tab, path);
    await opened(tab, 20);
    const took = Date.now() - since;
    console.log(`a ZIP file of 20 layers and 100,000 items, ${made.reduce((sum, { bytes }) => sum + bytes.length, 0).toLocaleString("en")} bytes in ${
      readFileSync(path[0]).length.toLocaleString("en")}, is open and at rest after ${took} ms`);
    assert.equal((await seen(tab)).layers.reduce((sum, { items }) => sum + items, 0), 100000);
    assert.ok(took < 15000, `${took} ms`);
  });
});

suite("texts are saved", () => {
  test("under the names that the files came with, in the folders of their ZIP file", async () => {
    const tab = await open();
    await drop(tab, zipped([{ name: "Fertigung/Lötseite.gbl", bytes: pads(3) }, { name: "Fertigung/bohr/a.drl",
      bytes: Buffer.from("M48\nMETRIC\nT1C1.0\n%\nG05\nT1\nX0.0Y0.0\nM30\n") }]));
    await opened(tab, 2);
    await drop(tab, onDisk({ "mine.gtl": pads(2) }));
    await opened(tab, 3);
    const { name, files } = await allSaved(tab);
    assert.equal(name, "board.zip");
    assert.deepEqual([...files.keys()].sort(), ["Fertigung/Lötseite.gbl", "Fertigung/bohr/a.drl", "mine.gtl"]);
    await press(tab, "#layers .name", 2);
    await rest(tab);
    const one = await saving(tab, () => tab.key("S", CTRL | SHIFT));
    assert.equal(one.name, "Lötseite.gbl");
    assert.ok(one.bytes.equals(files.get("Fertigung/Lötseite.gbl")));
    await isAsTheProgram(tab);
    // They are known when the page is opened again, too.
    await tab.reload();
    await rest(tab);
    assert.deepEqual([...(await allSaved(tab)).files.keys()].sort(), ["Fertigung/Lötseite.gbl", "Fertigung/bohr/a.drl", "mine.gtl"]);
    assert.deepEqual(tab.complaints(), []);
  });

  test("what is saved is opened again as the same layers", async () => {
    const tab = await open(), again = await open();
    await drop(tab, zipped(kicad().map(({ name, bytes }) => ({ name: `out/${name}`, bytes }))));
    await opened(tab, 8);
    const { bytes, files } = await allSaved(tab);
    await drop(again, onDisk({ "board.zip": bytes }));
    await opened(again, 8);
    const texts = await allSaved(again);
    assert.deepEqual([...texts.files.keys()].sort(), [...files.keys()].sort());
    for (const [name, text] of texts.files) assert.ok(text.equals(files.get(name)), name);
  });

  test("several of one name have a number, and what came without a file the layer's name", async () => {
    const tab = await open();
    await drop(tab, onDisk({ "a.gtl": pads(2) }));
    await opened(tab, 1);
    await drop(tab, onDisk({ "A.GTL": pads(3) }));
    await opened(tab, 2);
    await typeLine(tab, "load again gerber files/a.gtl");
    await opened(tab, 3);
    await toBoard(tab);
    assert.deepEqual([...(await allSaved(tab)).files.keys()].sort(), ["A-2.GTL", "a.gtl", "again.gbr"]);
    await isAsTheProgram(tab);
  });
});

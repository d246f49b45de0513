// The parts of the page that need no browser.

import assert from "node:assert/strict";
import { inflateSync } from "node:zlib";
import { mkdtempSync, readFileSync, rmSync, writeFileSync } from "node:fs";
import { join } from "node:path";
import { spawnSync } from "node:child_process";
import { tmpdir } from "node:os";
import { Steps, stepWords } from "../machine/steps.js";
import { afterwards, skip, suite, test } from "../../tools/tests/harness.js";
import { compared, paint, pictureOf, putTile } from "../worker/pictures.js";
import { crc32, pngOf, zipOf } from "../zip/packing.js";
import { entriesFrom, itemOf, shifted } from "../board/items.js";
import { lengthOf, mm } from "../board/units.js";
import { knowRefusals, refusalWords } from "../machine/refusal_words.js";
import { inlined } from "../building/inline.js";
import { refusalsOf } from "../building/refusals.js";

const bytesOf = (text) => new TextEncoder().encode(text);

function room() {
  const folder = mkdtempSync(join(tmpdir(), "camplot-parts-"));
  afterwards(() => rmSync(folder, { recursive: true }));
  return folder;
}

suite("lengths", () => {
  test("what is typed", () => {
    assert.deepEqual(["1", "-0.25", "1,5 mm", "50 mil", "1in", "7 nm", "3um"].map(lengthOf),
      [1e6, -250000, 1.5e6, 1270000, 25400000, 7, 3000]);
    assert.deepEqual(["", "mm", "1 2", "x", "5000000"].map(lengthOf), [null, null, null, null, null]);
  });
  test("what is shown", () => assert.deepEqual([0, 1, -1500000, 1234567].map(mm), ["0.000", "0.000001", "-1.500", "1.234567"]));
});

suite("what the page tells of a refusal", () => {
  test("no tool and no document by a path that only a copy of the repository has", () => {
    const page = readFileSync(new URL("../../docs/refusals.md", import.meta.url), "utf8");
    const texts = Object.values(refusalsOf(page)).flatMap((kind) => Object.values(kind).map(({ text }) => text));
    assert.ok(texts.some((text) => text.includes("camplot-to-gerber --nearest")));
    assert.ok(texts.some((text) => text.includes("camplot's formats.md")));
    assert.deepEqual(texts.filter((text) => /\b(tools|docs)\//.test(text)), []);
  });
});

suite("steps", () => {
  const after = (...lines) => {
    const steps = new Steps(3);
    for (const line of lines) steps.take(line);
    return [steps.done.map(({ words }) => words), steps.undone.map(({ words }) => words)];
  };
  test("edits, undo and redo", () => {
    assert.deepEqual(after("load a gerber f", "move a 0 1000000 -500000", "delete a 3"),
      [["move a 0 by 1, -0.5 mm", "delete a 3"], []]);
    assert.deepEqual(after("delete a 1", "delete a 2", "undo"), [["delete a 1"], ["delete a 2"]]);
    assert.deepEqual(after("delete a 1", "undo", "redo"), [["delete a 1"], []]);
    assert.deepEqual(after("delete a 1", "undo", "delete a 5"), [["delete a 5"], []]);
  });
  test("groups", () => {
    assert.deepEqual(after("begin", "move a 0 1 0", "move a 1 1 0", "end"), [["move 2 items"], []]);
    assert.deepEqual(after("begin", "end"), [[], []]);
    assert.deepEqual(after("begin", "move a 0 1 0", "abort"), [[], []]);
  });
  test("a load forgets, and the depth is kept", () => {
    assert.deepEqual(after("delete a 1", "load b drill f"), [[], []]);
    assert.deepEqual(after("delete a 1", "delete a 2", "delete a 3", "delete a 4")[0], ["delete a 2", "delete a 3", "delete a 4"]);
  });
  test("several verbs", () => assert.equal(stepWords(["move a 0 1 0", "delete a 1"]), "2 edits"));
});

suite("words of items", () => {
  test("are shifted by their points alone", () => {
    assert.equal(shifted("flash 10 -5 7 r90 dark", 10, 20), "flash 10 5 27 r90 dark");
    assert.equal(shifted("draw 10 0 1 2 3 m180 clear", 1, 1), "draw 10 1 2 3 4 m180 clear");
    assert.equal(shifted("arc 12 0 1 2 3 4 5 ccw dark", 1, -1), "arc 12 1 0 3 2 5 4 ccw dark");
    assert.equal(shifted("region dark 0 0 l 10 0 cw 20 10 15 5 l 0 0", 1, 2), "region dark 1 2 l 11 2 cw 21 12 16 7 l 1 2");
    assert.equal(shifted("hit 1 5 6", 1, 1), "hit 1 6 7");
    assert.equal(shifted("rout 1 5 6 7 8", 1, 1), "rout 1 6 7 8 9");
  });
  test("are taken apart", () => {
    const region = itemOf("region clear 0 0 l 10 0 ccw 0 10 5 5");
    assert.equal(region.polarity, "clear");
    assert.deepEqual(region.segments, [{ kind: "l", to: [10, 0], centre: null }, { kind: "ccw", to: [0, 10], centre: [5, 5] }]);
    assert.deepEqual(itemOf("rout 2 0 0 1 1 2 2").points, [[0, 0], [1, 1], [2, 2]]);
    assert.equal(itemOf("repeat 2 x 2 at steps 1 1"), null);
  });
});

suite("entries", () => {
  test("of an answer of the station", () => {
    const lines = ["aperture 10", "%ADD10C,0.500000*%", "aperture 11", "%AMM11*", "1,1,0.500000,0.000000,0.000000*", "%",
      "%ADD11M11*%", "block 12 2", "  flash 10 0 0 r0 dark", "  flash 11 1000000 0 r0 clear", "aperture 13",
      "%ADD13R,2.000000X1.000000X0.300000*%"];
    const none = { width: 0, height: 0, shape: null, hasHole: false };
    assert.deepEqual(entriesFrom(lines), [
      { number: 10, words: "circle 0.5 mm", width: 500000, height: 500000, shape: "circle", hasHole: false, definition: "aperture\n%ADDC,0.500000*%" },
      { ...none, number: 11, words: "a shape of primitives", definition: "aperture\n%AMM*\n1,1,0.500000,0.000000,0.000000*\n%\n%ADDM*%" },
      { ...none, number: 12, words: "block", definition: "block\n  flash 10 0 0 r0 dark\n  flash 11 1000000 0 r0 clear" },
      { number: 13, words: "rectangle 2 by 1 mm", width: 2000000, height: 1000000, shape: "rectangle", hasHole: true,
        definition: "aperture\n%ADDR,2.000000X1.000000X0.300000*%" }]);
    assert.deepEqual(entriesFrom(["tool 1", "T1C0.800000"]),
      [{ ...none, number: 1, words: "0.8 mm", width: 800000, height: 800000, definition: "tool\nTC0.800000" }]);
  });
});

suite("pictures", () => {
  // 16 by 4 pixels: two black in the upper left square, one in the lower right.
  const pbm = new Uint8Array([...bytesOf("P4\n16 4\n"), 0x80, 0, 0x40, 0, 0, 0, 0, 1]);
  test("a pixel for each", () => {
    const pixels = new Uint32Array(64);
    assert.ok(paint(pictureOf(pbm), 1, 0x030201, pixels, 16));
    assert.deepEqual([...pixels].flatMap((value, at) => value ? [at] : []), [0, 17, 63]);
    assert.equal(pixels[0], 0xff030201);
  });
  test("a pixel for each square of two by two", () => {
    const pixels = new Uint32Array(16);
    assert.ok(paint(pictureOf(pbm), 2, 0, pixels, 8));
    assert.deepEqual([pixels[0] >>> 24, pixels[1] >>> 24, pixels[15] >>> 24], [160, 0, 96]);
    assert.ok(!paint(pictureOf(new Uint8Array([...bytesOf("P4\n16 4\n"), 0, 0, 0, 0, 0, 0, 0, 0])), 2, 0, pixels, 8));
  });
  test("tiles", () => {
    const picture = { width: 72, height: 66, stride: 9, bits: new Uint8Array(9 * 66) };
    const rows = new Uint8Array(512);
    rows[0] = 1;
    rows[8] = 2;
    putTile(picture, rows, 1);
    assert.deepEqual([picture.bits[8], picture.bits[17]], [0x80, 0x40]);
    putTile(picture, rows, 2);
    assert.equal(picture.bits[64 * 9], 0x80);
  });
  test("compared", () => {
    const one = pictureOf(pbm), other = { ...one, bits: new Uint8Array([0x80, 0, 0, 0, 0, 0, 0, 3]) };
    assert.deepEqual(compared(one, other).map(({ count }) => count), [2, 1, 1]);
  });
});

suite("packing", () => {
  test("sums", () => assert.equal(crc32(bytesOf("1234"), bytesOf("56789")), 0xcbf43926));
  test("a ZIP file that python reads", () => {
    const folder = room(), path = join(folder, "a.zip");
    writeFileSync(path, Buffer.concat(zipOf([{ name: "a", bytes: bytesOf("first") }, { name: "files/b", bytes: bytesOf("") }])));
    const reading = "import sys, zipfile; z = zipfile.ZipFile(sys.argv[1]); print(z.testzip(), [(n, z.read(n)) for n in z.namelist()])";
    const told = spawnSync("python3", ["-c", reading, path], { encoding: "utf8" });
    if (told.error) skip("no python3 is at hand");
    assert.equal(told.stdout, "None [('a', b'first'), ('files/b', b'')]\n");
  });
  test("a PNG file", async () => {
    const png = Buffer.concat(await pngOf(new Uint8Array([...bytesOf("P4\n9 2\n"), 0x80, 0, 0, 0x80]), 25400));
    assert.equal(png.readUInt32BE(16), 9);
    assert.equal(png.readUInt32BE(20), 2);
    const at = png.indexOf("IDAT"), length = png.readUInt32BE(at - 4);
    assert.deepEqual([...inflateSync(png.subarray(at + 4, at + 4 + length))], [0, 0x7f, 0xff, 0, 0xff, 0x7f]);
    assert.equal(png.readUInt32BE(png.indexOf("pHYs") + 4), 39370);
  });
});

suite("refusals", () => {
  test("in words", () => {
    knowRefusals({ general: { 26: { name: "no end", text: "It was cut short." } }, drill: {} });
    assert.equal(refusalWords("refused 26 3", bytesOf("ab\n"), "gerber"),
      "refused 26, no end. It was cut short. At line 2, column 1 (byte 3), the end.");
  });
});

suite("modules in one text", () => {
  test("exports and imports", () => {
    const folder = room();
    writeFileSync(join(folder, "a.js"), 'import { two as second } from "./b.js";\nimport * as all from "./b.js";\n'
      + "globalThis.told = `${second()} ${all.three} ${all.four}`;\n");
    writeFileSync(join(folder, "b.js"), 'import {\n  four,\n} from "./c.js";\nexport { four };\nexport function two() {\n  return 2;\n}\n'
      + "export const three = 3;\n");
    writeFileSync(join(folder, "c.js"), "const inner = 4;\nexport { inner as four };\n");
    new Function(inlined(join(folder, "a.js")))();
    assert.equal(globalThis.told, "2 3 4");
  });
  test("several of one line, and a name that is not there", () => {
    const folder = room();
    writeFileSync(join(folder, "a.js"), 'import { TWO } from "./b.js";\nglobalThis.told = TWO;\n');
    writeFileSync(join(folder, "b.js"), 'export const ONE = "1", TWO = "2";\n');
    new Function(inlined(join(folder, "a.js")))();
    assert.equal(globalThis.told, "2");
    writeFileSync(join(folder, "b.js"), 'export const ONE = "1";\n');
    assert.throws(() => inlined(join(folder, "a.js")), /does not export TWO/);
  });
  test("comments are left out, those that give types too, and what lines are indented by", () => {
    const folder = room();
    writeFileSync(join(folder, "a.js"), "// One more.\n/**\n * @param {number} count of *all*\n */\nfunction more(count) {\n  /** @type {number} */\n"
      + "  const one = 1;\n  return count + one;\n}\nglobalThis.told = more(/** @type {number} */ (2));\n");
    const text = inlined(join(folder, "a.js"));
    new Function(text)();
    assert.equal(globalThis.told, 3);
    assert.match(text, /^function more\(count\) \{\nconst one = 1;$/m);
    assert.doesNotMatch(text, /One more|@param/);
  });
  test("of an index only what is imported comes into the text", () => {
    const folder = room();
    writeFileSync(join(folder, "a.js"), 'import { six, two as second } from "./index.js";\nglobalThis.told = `${six} ${second}`;\n');
    writeFileSync(join(folder, "index.js"), '// A floor.\n\nexport { one, two } from "./b.js";\nexport {\n  three as six,\n} from "./more.js";\n'
      + 'export { other } from "./other.js";\n\n/** @typedef {import("./b.js").Kind} Kind */\n');
    writeFileSync(join(folder, "more.js"), 'export { three } from "./c.js";\n');
    writeFileSync(join(folder, "b.js"), "export const one = 1;\nexport const two = 2;\n");
    writeFileSync(join(folder, "c.js"), "export const three = 6;\n");
    writeFileSync(join(folder, "other.js"), 'globalThis.told = "the whole floor";\nexport const other = 4;\n');
    const text = inlined(join(folder, "a.js"));
    new Function(text)();
    assert.equal(globalThis.told, "6 2");
    assert.doesNotMatch(text, /the whole floor|A floor/);
    assert.equal(text.match(/^const module\d+ = /gm).length, 3);
    writeFileSync(join(folder, "a.js"), 'import { seven } from "./index.js";\nglobalThis.told = seven;\n');
    assert.throws(() => inlined(join(folder, "a.js")), /index\.js does not export seven/);
  });
  test("modules that import one another are refused", () => {
    const folder = room();
    writeFileSync(join(folder, "a.js"), 'import { b } from "./b.js";\nexport const a = b;\n');
    writeFileSync(join(folder, "b.js"), 'import { a } from "./a.js";\nexport const b = a;\n');
    assert.throws(() => inlined(join(folder, "a.js")), /import one another/);
  });
});

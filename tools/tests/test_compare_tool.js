// tools/compare on boards: planted differences are found at their places and nothing else, and what it prints and writes.

import assert from "node:assert/strict";
import { cpSync, existsSync, mkdirSync, readFileSync, readdirSync, renameSync, rmSync, writeFileSync } from "node:fs";
import { join } from "node:path";
import { Shapes, readCanonical } from "../../web/compare/canonical.js";
import { Extents } from "../../web/compare/extents.js";
import { Difference } from "../../web/compare/pixels.js";
import { kindOf } from "../../web/board/file_kinds.js";
import { zipOf } from "../../web/zip/packing.js";
import { readPbm } from "../../web/bytes/pbm.js";
import { windowLine } from "../../web/board/windows.js";
import { AskedLayer } from "../lib/asked_layer.js";
import { escaped } from "../lib/compare_report.js";
import { runLines } from "../lib/station.js";
import { part, skip, suite, test } from "./harness.js";
import { CASES, PROGRAM, REPOSITORY, needProgram, newRoom, runTool } from "./support.js";

const KICAD = join(REPOSITORY, "examples", "kicad"), TOP = "nightlight-F_Cu.gbr", HOLES = "nightlight-PTH.drl", SILK = "nightlight-F_Silkscreen.gbr";
const COUNT = 8;

// Two copies of a board in a new folder.
function laid() {
  const room = newRoom();
  for (const side of ["a", "b"]) {
    mkdirSync(join(room, side));
    for (const name of readdirSync(KICAD).filter((file) => /\.(gbr|drl)$/.test(file))) cpSync(join(KICAD, name), join(room, side, name));
  }
  return room;
}

/** @param {{name: string, bytes: Uint8Array}[]} files */
const zipped = (files) => Buffer.concat(zipOf(files));

// The text of B's file with something in place of something that it has.
function planted(room, name, from, to) {
  const path = join(room, "b", name), text = readFileSync(path, "latin1");
  assert.ok(text.includes(from), `${name} has no ${from}`);
  writeFileSync(path, text.replace(from, to), "latin1");
}

function compare(room, words = ["a", "b"]) {
  needProgram();
  return runTool("compare", [...words, "--camplot", PROGRAM], room);
}

function jsonOf(room, status, words = ["a", "b"]) {
  const done = compare(room, [...words, "--json"]);
  assert.equal(done.status, status, done.stderr);
  return JSON.parse(done.stdout);
}

// What a comparison tells of the pairs that are not the same file: their file of A, outcome, changes, dates, attributes, comments.
function told({ pairs }) {
  return pairs.filter(({ isSameFile }) => !isSameFile).map(({ a, outcome, places, dates, attributes, comments }) => ({ a, outcome,
    changes: places.flatMap(({ changes }) => changes.map(({ what, parts }) => [what, ...parts].join(" "))), places: places.length,
    said: [dates.length, attributes.length, comments.length] }));
}

suite("a board", () => {
  test("is the same as its copy, as its ZIP file, and as its files", () => {
    const room = laid(), files = readdirSync(join(room, "b")).map((name) => ({ name: `gerbers/${name}`, bytes: readFileSync(join(room, "b", name)) }));
    writeFileSync(join(room, "b.zip"), zipped(files));
    for (const words of [["a", "b"], ["a", "b.zip"], ["b.zip", "a"], [...files.map(({ name }) => name.replace("gerbers", "a")), ":", ...files.map(({ name }) => name.replace("gerbers", "b"))]]) {
      part(words.join(" ").slice(0, 40), () => {
        const { status, stdout, stderr } = compare(room, words);
        assert.equal(stderr, "");
        assert.equal(stdout.trimEnd().split("\n").at(-1), `${COUNT} pairs of layers: ${COUNT} the same, 0 the same picture, 0 different`);
        assert.equal(status, 0);
      });
    }
  });

  for (const [name, file, from, to, outcome, changes, said] of /** @type {[string, string, string, string, string, string[], number[]][]} */ ([
    ["a hole moved by 1 nm", HOLES, "X113.5Y-95.5", "X113.500001Y-95.5", "same picture", ["moved"], [0, 0, 0]],
    ["a hole moved by 0.2 mm", HOLES, "X113.5Y-95.5", "X113.7Y-95.5", "differs", ["moved"], [0, 0, 0]],
    ["a hole less", HOLES, "X113.5Y-95.5\n", "", "differs", ["went"], [0, 0, 0]],
    ["another tool by 1 nm", HOLES, "T3C1.000", "T3C1.000001", "same picture", ["changed tool", "changed tool"], [0, 0, 0]],
    ["another aperture by 1 nm", TOP, "%ADD11O,1.700000X1.700000*%", "%ADD11O,1.700000X1.700001*%", "same picture", ["changed aperture"], [0, 0, 0]],
    ["a date alone", TOP, "%TF.CreationDate,2024-09-02", "%TF.CreationDate,2025-01-01", "same", [], [1, 0, 0]],
    ["a date in a comment alone", TOP, "date 2024-09-02 20:14:31*", "date 2025-01-01 08:00:00*", "same", [], [1, 0, 0]],
    ["an attribute alone", TOP, "%TF.ProjectId,nightlight", "%TF.ProjectId,daylight", "same", [], [0, 1, 0]],
    ["an attribute of tools alone", HOLES, "PTH,ViaDrill", "PTH,ComponentDrill", "same", [], [0, 1, 0]],
    ["a comment alone", TOP, "G04 APERTURE LIST*", "G04 APERTURES*", "same", [], [0, 0, 1]],
  ])) {
    test(`${name} is found, and nothing else`, () => {
      const room = laid();
      planted(room, file, from, to);
      const found = jsonOf(room, outcome === "same" ? 0 : 1);
      const [{ places, ...one }, ...others] = told(found);
      assert.deepEqual(one, { a: file, outcome, changes, said });
      assert.deepEqual(others, []);
      assert.ok(places <= changes.length);
      assert.equal(found.isSame, outcome === "same");
    });
  }

  test("an item more of clear polarity, and the order of a dark and a clear item", () => {
    const room = laid(), gerber = (items) => `%TF.FileFunction,Legend,Bot*%\n%FSLAX46Y46*%\n%MOMM*%\n%ADD10C,1*%\nD10*\n${items.join("\n")}\nM02*\n`;
    const dark = "%LPD*%\nX0Y0D03*", clear = "%LPC*%\nX200000Y0D03*", far = "%LPD*%\nX9000000Y0D03*";
    writeFileSync(join(room, "a", "silk.gbr"), gerber([dark, clear, far]));
    for (const [items, changes] of /** @type {[string[], string[]][]} */ ([[[clear, dark, far], ["reordered"]], [[dark, clear, far, clear.replace("X2", "X90")], ["came"]],
      [[far, dark, clear], []], [[dark, far, clear], []]])) {
      writeFileSync(join(room, "b", "silk.gbr"), gerber(items));
      assert.deepEqual(told(jsonOf(room, changes.length ? 1 : 0)), [{ a: "silk.gbr", outcome: changes.length ? "differs" : "same", changes, places: changes.length, said: [0, 0, 0] }]);
    }
  });

  test("a layer that is renamed is the same, and one that is missing is told", () => {
    const room = laid();
    renameSync(join(room, "b", TOP), join(room, "b", "copper 1.gbr"));
    const renamed = compare(room);
    assert.deepEqual([renamed.status, /^ {2}the file is called copper 1\.gbr now$/m.test(renamed.stdout)], [0, true], renamed.stdout);
    rmSync(join(room, "b", SILK));
    const { onlyInA, onlyInB, isSame, pairs } = jsonOf(room, 1);
    assert.deepEqual([onlyInA, onlyInB, isSame, pairs.length], [[{ shows: "top silkscreen", file: SILK }], [], false, COUNT - 1]);
    assert.deepEqual(jsonOf(room, 1, ["b", "a"]).onlyInB, onlyInA);
  });

  test("a layer that shows another thing now is not the same", () => {
    const room = laid();
    planted(room, SILK, "%TF.FileFunction,Legend,Top*%", "%TF.FileFunction,Legend,Bot*%");
    const { pairs } = jsonOf(room, 1), [pair] = pairs.filter(({ isSame }) => !isSame);
    assert.deepEqual([pair.a, pair.shows, pair.outcome], [SILK, "top silkscreen, now bottom silkscreen", "same"]);
  });

  test("a file that is refused is told, and is the same where its bytes are", () => {
    const room = laid();
    for (const side of ["a", "b"]) writeFileSync(join(room, side, "x.gbl"), "%FSLAX46Y46*%\n%MOMM*%\nD99*\nM02*\n");
    assert.equal(compare(room).status, 0);
    writeFileSync(join(room, "b", "x.gbl"), "%FSLAX46Y46*%\n%MOMM*%\nD98*\nM02*\n");
    const { status, stdout } = compare(room);
    assert.equal(status, 2);
    assert.match(stdout, /x\.gbl: A: refused \d+, .*; B: refused \d+, /);
    assert.match(stdout, /1 not compared$/m);
  });
});

suite("the page", () => {
  test("has pictures of each place, loads nothing, and escapes what files and names hold", () => {
    const room = laid(), evil = '<img src=x onerror="alert(1)">';
    planted(room, HOLES, "X113.5Y-95.5\n", "");
    planted(room, TOP, "%TF.ProjectId,nightlight", `%TF.ProjectId,${evil}`);
    renameSync(join(room, "b", SILK), join(room, "b", "<script>alert(1)<.gbr"));
    const done = compare(room, ["a", "b", "--html", "what.html"]);
    assert.equal(done.status, 1, done.stderr);
    const page = readFileSync(join(room, "what.html"), "utf8");
    assert.equal(page.match(/<img /g).length, 3);
    assert.equal(page.match(/src="data:image\/png;base64,[A-Za-z0-9+/=]+"/g).length, 3);
    assert.ok(!/<script|<img src=x|https?:|url\(/i.test(page));
    assert.ok(page.includes("&lt;img src=x onerror=") && page.includes("&lt;script&gt;"));
    assert.match(page, /Content-Security-Policy" content="default-src 'none'; img-src data:; style-src 'unsafe-inline'"/);
    const again = compare(room, ["a", "b", "--html", "what.html"]);
    assert.deepEqual([again.status, /exists already; --replace replaces it/.test(again.stderr)], [2, true]);
  });

  test("shows no letter that turns the way of writing", () => {
    assert.equal(escaped("a\u202eb\u0000<&\"'>"), "a\ufffdb\ufffd&lt;&amp;&quot;&#39;&gt;");
  });
});

suite("a call", () => {
  test("that does not fit, or a file that cannot be read, is told with status 2", () => {
    const room = laid();
    mkdirSync(join(room, "empty"));
    writeFileSync(join(room, "cut.zip"), zipped([{ name: "a.gbr", bytes: Buffer.from("G04*") }]).subarray(0, 40));
    for (const [words, line] of /** @type {[string[], RegExp][]} */ ([[["a"], /it needs two boards/], [["a", "b", "b"], /it needs two boards/], [["a", ":"], /a colon stands between/],
      [["a", "nowhere"], /nowhere does not exist/], [["a", "empty"], /no layer is recognised among 0 files of empty/], [["a", "cut.zip"], /cut\.zip is not read/],
      [["a", "b", "--html", `a/${TOP}`, "--replace"], /is a file that was read/], [["a", "b", "-o", `b/${TOP}`, "--replace"], /is a file that was read/],
      [["a", "b", "--dpi", "9", "--pitch", "9"], /give one of them/], [["a", "b", "--html", "x", "-o", "x"], /name the same file/]])) {
      part(words.join(" "), () => {
        const { status, stderr } = compare(room, words);
        assert.match(stderr, line);
        assert.doesNotMatch(stderr, /^ {4}at /m);
        assert.equal(status, 2);
      });
    }
    assert.ok(readFileSync(join(room, "b", TOP), "latin1").startsWith("%TF"));
  });

  test("a file of a ZIP file that is broken is told with status 2, and the others are compared", () => {
    const room = laid(), names = readdirSync(join(room, "b")), bytes = zipped(names.map((name) => ({ name, bytes: readFileSync(join(room, "b", name)) })));
    bytes[bytes.indexOf("%TF.FileFunction,Copper,L1,Top*%")] = 0x20;
    writeFileSync(join(room, "broken.zip"), bytes);
    const { status, stdout, stderr } = compare(room, ["a", "broken.zip"]);
    assert.match(stderr, /broken\.zip: nightlight-F_Cu\.gbr is not read: its checksum is another one/);
    assert.match(stdout, new RegExp(`^${COUNT - 1} pairs of layers: ${COUNT - 1} the same, .*, 1 only in A$`, "m"));
    assert.equal(status, 2);
  });

  test("with -o writes what it prints", () => {
    const room = laid(), printed = compare(room).stdout;
    assert.deepEqual(compare(room, ["a", "b", "-o", "list"]), { status: 0, stdout: "", stderr: "" });
    assert.equal(readFileSync(join(room, "list"), "utf8"), printed);
  });
});

// The box of the pixel centres that the program paints of the item at a place, plotted alone and dark around its box.
function paintedBox(path, kind, count, place, box, isClear) {
  const room = newRoom(), pitch = Math.max(1, Math.ceil(Math.max(box.right - box.left, box.high - box.low) / 300));
  cpSync(path, join(room, "file"));
  const others = Array.from({ length: count }, (_, at) => count - 1 - at).filter((at) => at !== place).map((at) => `delete it ${at}`);
  const window = { x: box.left - 10 * pitch, y: box.low - 10 * pitch, pitch, width: 330, height: 330 };
  const lines = [`load it ${kind} file`, ...others, ...isClear ? ["polarity it 0 dark"] : [], windowLine(window), "plot it it.pbm"];
  for (const reply of runLines(PROGRAM, room, lines)) assert.ok(reply.isAccepted, reply.line);
  const picture = readPbm(readFileSync(join(room, "it.pbm")));
  return { box: new Difference(picture, { ...picture, bits: new Uint8Array(picture.bits.length) }, window).box, pitch };
}

suite("a canonical text", () => {
  test("gives boxes that hold what the program paints of each item, and no more", () => {
    needProgram();
    const paths = [join(CASES, "items", "kinds.gbr"), join(CASES, "items", "holes.drl"), join(KICAD, TOP)];
    for (const path of paths) {
      const room = newRoom(), kind = kindOf(readFileSync(path)), shapes = new Shapes(), extents = new Extents(shapes);
      cpSync(path, join(room, "file"));
      runLines(PROGRAM, room, [`load it ${kind} file`, "write it text"]);
      const { items } = readCanonical(kind, readFileSync(join(room, "text")), shapes);
      items.forEach((item, place) => part(`${path}: ${item.slice(0, 80)}`, () => {
        const box = extents.box(item), { box: painted, pitch } = paintedBox(path, kind, items.length, place, box, item.endsWith(" clear"));
        const isWhole = !/^repeat/.test(item) && !shapes.texts[Number(item.split(" ")[1])]?.startsWith("B");
        for (const [side, way] of /** @type {[string, number][]} */ ([["left", 1], ["low", 1], ["right", -1], ["high", -1]])) {
          const inside = way * (painted[side] - box[side]);
          assert.ok(inside >= 0 && (!isWhole || inside <= 2 * pitch), `${side}: ${painted[side]}, ${box[side]}, pixels of ${pitch}`);
        }
      }));
    }
  });

  test("has the items that the station answers, and boxes that hold theirs", () => {
    if (!existsSync(join(REPOSITORY, "web", "out", "station.wasm"))) skip("web/out/station.wasm is not built");
    for (const board of ["kicad", "blinker", "four_layers"]) {
      const folder = join(REPOSITORY, "examples", board);
      for (const name of readdirSync(folder).filter((file) => /\.(gbr|drl)$/.test(file))) {
        part(name, () => {
          const bytes = readFileSync(join(folder, name)), kind = kindOf(bytes), layer = new AskedLayer(kind, bytes), shapes = new Shapes();
          const { items, entries } = readCanonical(kind, layer.text(), shapes), extents = new Extents(shapes);
          const own = items.map((item, at) => (entries[at] < 0 ? item : item.replace(/^(\w+) \d+/, (_, word) => `${word} ${entries[at]}`)));
          const plain = (words) => words.replace(/ [rm]\d+ (dark|clear)$/, " $1");
          assert.deepEqual(own.map(plain), [...layer.items()].map(plain));
          items.forEach((item, at) => {
            const box = extents.box(item), asked = layer.boxAt(at), isArc = item.startsWith("arc") || item.startsWith("region");
            if (!asked) return;
            const near = (one, other, most) => Math.abs(one - other) <= most;
            for (const side of ["left", "low", "right", "high"]) assert.ok(isArc || near(box[side], asked[side], 1), `${item}: ${side}`);
          });
        });
      }
    }
  });
});

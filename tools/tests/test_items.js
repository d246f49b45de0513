// tools/items: the items of a layer in words, as camplot counts them; and what a layer answers that is asked.

import assert from "node:assert/strict";
import { existsSync, readFileSync, readdirSync, writeFileSync } from "node:fs";
import { join } from "node:path";
import { AskedLayer } from "../lib/asked_layer.js";
import { part, suite, test } from "./harness.js";
import { CASES, PROGRAM, REPOSITORY, needProgram, newRoom, runProgram, runTool } from "./support.js";

/** @typedef {[x: number, y: number]} Point */
/** @typedef {[start: Point, end: Point, isClockwise: boolean, sides: number[]]} Arc */

const ITEMS = join(CASES, "items");
const KINDS = join(ITEMS, "kinds.gbr"), HOLES = join(ITEMS, "holes.drl");
const OWN = [KINDS, HOLES];
const bytesOf = (text) => new TextEncoder().encode(text);

// Every text that the program is known to write.
function texts() {
  const cases = join(REPOSITORY, "black_box", "cases");
  const written = readdirSync(cases).sort().map((name) => join(cases, name, "written")).filter(existsSync)
    .flatMap((folder) => readdirSync(folder).map((name) => join(folder, name)));
  return [...written.filter((path) => /\.(gbr|drl)$/.test(path)), ...OWN];
}

function kindOf(path) {
  return path.endsWith(".drl") ? "drill" : "gerber";
}

const asked = (path) => new AskedLayer(kindOf(path), readFileSync(path));
const sidesOf = (box) => box && [box.left, box.low, box.right, box.high];

// What camplot replies to the lines of a script that it runs in the folder.
function replies(folder, lines) {
  const script = join(folder, "script");
  writeFileSync(script, lines.map((line) => `${line}\n`).join(""));
  return runProgram(PROGRAM, [script], folder).stdout.split("\n").slice(0, -1);
}

suite("lines", () => {
  test("each kind is told, byte for byte", () => {
    for (const path of OWN) {
      const { status, stdout, stderr } = runTool("items", [path]);
      assert.deepEqual([status, stderr], [0, ""], path);
      assert.equal(stdout, readFileSync(path.replace(/\.\w+$/, ".items"), "utf8"));
    }
  });

  test("one kind alone", () => {
    const { stdout } = runTool("items", [KINDS, "--only", "arc"]);
    assert.deepEqual(stdout.trim().split("\n").map((line) => line.trim().split(/ +/).slice(0, 2)), [["K", "item"], ["2", "arc"]]);
  });

  test("items at a point", () => {
    for (const [point, places] of [[[5000000, 5000000], ["1", "4"]], [[-1400000, -2400000], ["0"]], [[-9000000, 0], []]]) {
      const { stdout } = runTool("items", [KINDS, "--at", ...point]);
      const found = stdout.split("\n").slice(1).filter((line) => /^\d/.test(line)).map((line) => line.split(" ")[0]);
      assert.deepEqual(found, places, String(point));
    }
  });

  test("apertures and tools", () => {
    const { stdout } = runTool("items", [KINDS, "--apertures"]);
    assert.deepEqual(stdout.trim().split("\n").map((line) => line.split(/ +/).slice(0, 2)),
      [["D10", "C"], ["D11", "R"], ["D12", "primitives"], ["D13", "block"]]);
    assert.deepEqual(runTool("items", [HOLES, "--apertures"]).stdout.trim().split(/\s+/),
      ["T1", "diameter", "300000", "T12", "diameter", "1000000"]);
  });

  test("long regions are cut short but when whole", () => {
    const path = join(newRoom(), "a b.gbr");
    const points = Array.from({ length: 59 }, (_, at) => `X${(at + 1) * 1000}Y${(at + 1) ** 2}D01*`);
    writeFileSync(path, ["%FSLAX46Y46*%", "%MOMM*%", "G36*", "X0Y0D02*", ...points, "G37*", "M02*", ""].join("\n"));
    assert.ok(runTool("items", [path]).stdout.includes(" .. 141 more words  "));
    assert.ok(runTool("items", [path, "--whole"]).stdout.includes(" l 59000 3481  "));
  });

  test("attributes are no items", () => {
    const path = join(newRoom(), "said.gbr");
    writeFileSync(path, "%FSLAX46Y46*%\n%MOMM*%\n%TF.FileFunction,Copper,L1,Top*%\n%TO.C,X1Y1D03*%\nG01*\nG75*\n"
      + "%ADD10R,0.300000X0.200000*%\nD10*\nX0Y0D02*\nX1Y0D01*\nM02*\n");
    assert.match(runTool("items", [path]).stdout, /^.*loaded\n.*\n0 {2}draw 10 0 0 1 0 r0 dark {2}R 300000 x 200000, 1 long\n$/);
  });

  test("who reads them may stop early", () => {
    const room = newRoom(), path = join(room, "many.drl");
    const hits = Array.from({ length: 30000 }, (_, at) => `X${at % 900}.000000Y0.000000`);
    writeFileSync(path, ["M48", "METRIC", "T1C0.800000", "%", "G05", "T1", ...hits, "M30", ""].join("\n"));
    const line = '"$0" "$1" "$2" | head -n 1; echo "${PIPESTATUS[0]}"';
    const words = ["-c", line, process.execPath, join(REPOSITORY, "tools", "items"), path];
    const { stdout, stderr } = runProgram("bash", words, room);
    assert.deepEqual([stdout.trim().split("\n").at(-1), stderr], ["0", ""]);
  });
});

suite("boxes", () => {
  test("of each kind", () => {
    const boxes = [0, 1, 2, 3, 4].map((place) => sidesOf(asked(KINDS).boxAt(place)));
    // The block's box is -500000 .. 1400000 by -1000000 .. 1000000; m180 negates y alone. The arc's has its whole circle.
    assert.deepEqual(boxes, [[-1400000, -2400000, 3400000, 1400000], [4500000, 4000000, 6400000, 6000000],
      [-1400001, -1400001, 1400001, 1400001], [0, -4000001, 6000001, 1], [-200000, -500000, 12100000, 5100000]]);
    assert.deepEqual(sidesOf(asked(HOLES).boxAt(1)), [-150000, -150000, 3150000, 5150000]);
  });

  test("of all, with what an arc passes", () => {
    for (const [start, end, isClockwise, sides] of /** @type {Arc[]} */ ([[[10, 0], [0, 10], false, [0, 0, 10, 10]],
      [[10, 0], [0, 10], true, [-10, -10, 10, 10]], [[10, 0], [10, 0], false, [-10, -10, 10, 10]],
      [[6, 8], [-6, 8], false, [-6, 8, 6, 10]], [[-6, 8], [-6, -8], false, [-10, -8, -6, 8]],
      [[-6, -8], [6, -8], false, [-6, -10, 6, -8]], [[6, -8], [6, 8], false, [6, -8, 10, 8]]])) {
      const place = ([x, y]) => `X${x * 1e6}Y${y * 1e6}`, [x, y] = start, centre = `I${-x * 1e6}J${-y * 1e6}`;
      const layer = new AskedLayer("gerber", bytesOf(`%FSLAX46Y46*%\n%MOMM*%\nG75*\n%ADD10C,0.000003*%\nD10*\n${place(start)}D02*\n`
        + `${isClockwise ? "G02" : "G03"}*\n${place(end)}${centre}D01*\nM02*\n`));
      const [left, low, right, high] = sides.map((side) => side * 1e6);
      assert.deepEqual(sidesOf(layer.box()), [left - 2, low - 2, right + 2, high + 2], String([start, end, isClockwise]));
    }
  });

  test("of nothing", () => {
    assert.equal(new AskedLayer("gerber", bytesOf("%FSLAX46Y46*%\n%MOMM*%\nM02*\n")).box(), null);
  });

  test("of an item that is not there, which is there for the answer alone", () => {
    const layer = asked(KINDS), before = layer.text();
    assert.deepEqual(sidesOf(layer.boxOf("flash 13 0 0 r0 dark")), [-500000, -1000000, 1400000, 1000000]);
    assert.throws(() => layer.boxOf("flash 99 0 0 r0 dark"), /'flash 99 0 0 r0 dark' was refused/);
    assert.deepEqual(layer.text(), before);
  });
});

suite("refused", () => {
  test("a file that is not there", () => {
    const { status, stdout, stderr } = runTool("items", ["/nowhere/at all.gbr"]);
    assert.deepEqual([status, stdout], [2, ""]);
    assert.ok(stderr.includes("/nowhere/at all.gbr"), stderr);
  });
});

suite("loaded", () => {
  test("a file that camplot refuses is told with its line", () => {
    const path = join(newRoom(), "a b.gbr");
    writeFileSync(path, "%FSLAX36Y36*%\n%MOMM*%\n%ADD10P,1X6*%\nM02*\n");
    const { status, stderr } = runTool("items", [path]);
    assert.equal(status, 2);
    assert.ok(stderr.includes("refused 11, template refused:"), stderr);
    assert.ok(stderr.includes("line 3, column 1 (byte 22): %ADD10P,1X6*%"), stderr);
  });

  test("any file that loads, and it is said that it is no text of camplot's", () => {
    const path = join(REPOSITORY, "examples", "blinker", "blinker-F_Cu.gbr");
    const { status, stdout, stderr } = runTool("items", [path]);
    assert.deepEqual([status, stderr], [0, ""]);
    assert.match(stdout, /^.*blinker-F_Cu.gbr is not a text that camplot wrote: these are its items after it is loaded\n/);
    assert.deepEqual(stdout.split("\n")[2].trim().split(/ +/).slice(0, 5), ["0", "flash", "10", "140500000", "-93950000"]);
  });
});

suite("as camplot counts", () => {
  test("as many items as a load tells", () => {
    needProgram();
    const folder = newRoom();
    for (const path of texts()) {
      part(path, () => {
        const text = readFileSync(path);
        writeFileSync(join(folder, "in"), text);
        const found = replies(folder, [`load a ${kindOf(path)} in`, "write a out"]);
        assert.equal(found[0], `ok ${[...asked(path).items()].length}`);
        assert.ok(readFileSync(join(folder, "out")).equals(text));
      });
    }
  });

  test("an item that is inserted by its words is the same", () => {
    needProgram();
    const folder = newRoom();
    for (const path of texts()) {
      part(path, () => {
        const text = readFileSync(path);
        writeFileSync(join(folder, "in"), text);
        const lines = [...asked(path).items()].flatMap((words, place) => {
          return words.startsWith("repeat ") ? [] : [`delete a ${place}`, `insert a ${place} ${words}`];
        });
        const found = replies(folder, [`load a ${kindOf(path)} in`, ...lines, "write a out"]);
        assert.deepEqual(found.filter((reply) => !reply.startsWith("ok")), []);
        assert.ok(readFileSync(join(folder, "out")).equals(text));
      });
    }
  });
});

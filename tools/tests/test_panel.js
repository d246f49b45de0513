// tools/panel: each layer of a panel is the board's, shifted, as the program plots both; and what no panel can be made of.

import assert from "node:assert/strict";
import { copyFileSync, existsSync, mkdirSync, readFileSync, readdirSync, writeFileSync } from "node:fs";
import { basename, join } from "node:path";
import { kindOf } from "../../web/board/file_kinds.js";
import { readPbm } from "../../web/bytes/pbm.js";
import { AskedLayer } from "../lib/asked_layer.js";
import { comparePanel } from "../lib/panel_check.js";
import { runLines } from "../lib/station.js";
import { part, suite, test } from "./harness.js";
import { CASES, PROGRAM, REPOSITORY, needProgram, newRoom, runTool } from "./support.js";

const KICAD = join(REPOSITORY, "examples", "kicad"), BLINKER = join(REPOSITORY, "examples", "blinker");
const HEAD = "%FSLAX46Y46*%\n%MOMM*%\n";

function panel(words, folder = undefined) {
  needProgram();
  return runTool("panel", [...words, "--camplot", PROGRAM], folder);
}

// Copies of files in a folder of their own.
function laid(paths) {
  const room = join(newRoom(), "files");
  mkdirSync(room);
  for (const path of paths) copyFileSync(path, join(room, basename(path)));
  return room;
}

// What the program plots of a file in windows.
function pictures(path, windows) {
  const room = newRoom(), kind = kindOf(readFileSync(path));
  copyFileSync(path, join(room, "file"));
  const lines = [`load it ${kind} file`, ...windows.flatMap(({ x, y, pitch, width, height }, at) => [`window ${x} ${y} ${pitch} ${width} ${height}`, `plot it ${at}.pbm`])];
  const refused = runLines(PROGRAM, room, lines).find((reply) => !reply.isAccepted);
  assert.equal(refused, undefined, refused?.line);
  return windows.map((_, at) => readPbm(readFileSync(join(room, `${at}.pbm`))).bits);
}

// Fails unless the whole panel is the pictures of the board, each shifted, one over another.
function checkShifted(board, made, { columns, rows, x, y }, window) {
  const shifts = Array.from({ length: columns * rows }, (_, at) => [Math.floor(at / rows) * x, at % rows * y]);
  const [found] = pictures(made, [window]);
  const each = pictures(board, shifts.map(([dx, dy]) => ({ ...window, x: window.x - dx, y: window.y - dy })));
  const wanted = new Uint8Array(found.length);
  for (const bits of each) for (let at = 0; at < bits.length; at++) wanted[at] |= bits[at];
  assert.ok(Buffer.from(found).equals(Buffer.from(wanted)));
  return wanted.some((byte) => byte !== 0);
}

suite("a panel", () => {
  test("of all layers of a board is the board's layers, shifted", () => {
    const room = laid(readdirSync(KICAD).filter((name) => /\.(gbr|drl)$/.test(name)).map((name) => join(KICAD, name)));
    const { status, stdout, stderr } = panel([room, "--columns", 3, "--rows", 2, "--spacing", "2mm"]);
    assert.equal(status, 0, stderr);
    const [, x, y] = /^3 x 2 boards at steps of ([\d.]+) and ([\d.]+) mm: /m.exec(stdout).map(Number);
    const boards = { columns: 3, rows: 2, x: x * 1e6, y: y * 1e6 }, names = readdirSync(room).filter((name) => name !== "panel");
    assert.deepEqual(readdirSync(join(room, "panel")).filter((name) => !name.startsWith(".")), names);
    const box = new AskedLayer("gerber", readFileSync(join(room, "nightlight-Edge_Cuts.gbr"))).box();
    const window = { x: box.left - 1_000_000, y: box.low - 1_000_000, pitch: 130_000,
      width: Math.ceil((3 * boards.x + 2e6) / 130_000), height: Math.ceil((2 * boards.y + 2e6) / 130_000) };
    for (const name of names) part(name, () => assert.ok(checkShifted(join(room, name), join(room, "panel", name), boards, window)));
  });

  test("has one repeat in place of a Gerber layer's items, the holes of each board, and the steps as given", () => {
    const room = laid([join(BLINKER, "blinker-F_Cu.gbr"), join(BLINKER, "blinker.drl")]);
    const { status, stdout, stderr } = panel([join(room, "blinker-F_Cu.gbr"), join(room, "blinker.drl"), "--columns", 2, "--rows", 3,
      "--step", "32", "24.000001", "-o", join(room, "out")]);
    assert.equal(status, 0, stderr);
    const top = readFileSync(join(room, "out", "blinker-F_Cu.gbr"), "utf8"), layer = new AskedLayer("gerber", Buffer.from(top));
    assert.match(top, /^%SRX2Y3I32\.000000J24\.000001\*%$/m);
    assert.equal(layer.count, 1);
    assert.equal(Buffer.from(layer.text()).toString(), top, "it is what camplot writes");
    assert.equal(new AskedLayer("drill", readFileSync(join(room, "out", "blinker.drl"))).count, 120);
    assert.match(stdout, /^blinker\.drl: 20 items for each board; camplot loads it: 120 items; 6 boards as the one, in \d+ pixels/m);
  });

  test("of a layer without apertures, of one without items, and of one with blocks, clear items and a repeat of its own", () => {
    const room = laid([join(CASES, "items", "kinds.gbr")]);
    writeFileSync(join(room, "region.gbr"), `${HEAD}G36*\nX0Y0D02*\nG01*\nX3000000Y0D01*\nX3000000Y2000000D01*\nX0Y0D01*\nG37*\nM02*\n`);
    writeFileSync(join(room, "empty.gbr"), `${HEAD}M02*\n`);
    const names = ["kinds.gbr", "region.gbr", "empty.gbr"];
    const { status, stdout, stderr } = panel([...names, "--columns", 2, "--rows", 2, "--step", 20, 20], room);
    assert.equal(status, 0, stderr);
    assert.match(stdout, /^kinds\.gbr: 10 items for each board; 1 repeat of its own written out;/m);
    const window = { x: -3_000_000, y: -6_000_000, pitch: 37_000, width: 1000, height: 900 };
    for (const name of names) {
      const isBlack = checkShifted(join(room, name), join(room, "panel", name), { columns: 2, rows: 2, x: 20e6, y: 20e6 }, window);
      assert.equal(isBlack, name !== "empty.gbr");
    }
  });

  test("of boards that reach into one another has the pictures of both", () => {
    const room = laid([join(BLINKER, "blinker-F_Cu.gbr")]);
    const { status, stderr } = panel(["blinker-F_Cu.gbr", "--columns", 3, "--step", 9, 0], room);
    assert.equal(status, 0, stderr);
    const window = { x: 119_000_000, y: -103_000_000, pitch: 100_000, width: 600, height: 240 };
    checkShifted(join(room, "blinker-F_Cu.gbr"), join(room, "panel", "blinker-F_Cu.gbr"), { columns: 3, rows: 1, x: 9e6, y: 0 }, window);
  });

  test("of a panel is made too", () => {
    const room = laid([join(BLINKER, "blinker-F_Cu.gbr")]);
    assert.equal(panel(["blinker-F_Cu.gbr", "--columns", 2, "--step", 32, 0, "-o", "one"], room).status, 0);
    const { status, stdout, stderr } = panel(["one/blinker-F_Cu.gbr", "--rows", 2, "--step", 0, 24, "-o", "two"], room);
    assert.equal(status, 0, stderr);
    assert.match(stdout, /170 items for each board; 1 repeat of its own written out/);
    const window = { x: 119_000_000, y: -103_000_000, pitch: 100_000, width: 640, height: 480 };
    checkShifted(join(room, "blinker-F_Cu.gbr"), join(room, "two", "blinker-F_Cu.gbr"), { columns: 2, rows: 2, x: 32e6, y: 24e6 }, window);
  });

  test("has its rail around all boards, in the outline or in a file of its own", () => {
    const outline = join(KICAD, "nightlight-Edge_Cuts.gbr"), top = join(KICAD, "nightlight-F_Cu.gbr");
    const sides = (path) => {
      const { left, low, right, high } = new AskedLayer("gerber", readFileSync(path)).box();
      return [right - left, high - low];
    };
    const room = laid([outline, top]), [wide, high] = sides(outline), line = 100_000;
    assert.equal(panel([room, "--columns", 2, "--spacing", "1mm", "--rail", "5mm"]).status, 0);
    // the box of an outline has half its line's width on each side, which its path has not
    const pen = 100_000;
    assert.deepEqual(sides(join(room, "panel", basename(outline))), [2 * (wide - pen) + 1e6 + 10e6 + line, high - pen + 10e6 + line]);
    const other = laid([top]);
    assert.equal(panel([other, "--columns", 2, "--step", 50, 0, "--rail", "5mm"]).status, 0);
    assert.ok(existsSync(join(other, "panel", "panel-outline.gbr")));
    assert.match(readFileSync(join(other, "panel", "panel-outline.gbr"), "utf8"), /^%TF\.FileFunction,Profile,NP\*%$/m);
  });

  test("keeps what a file says of itself, also in comments, as it holds for the panel", () => {
    const room = newRoom();
    writeFileSync(join(room, "a.gbr"), `${HEAD}%TF.Part,Single*%\n%TF.MD5,00*%\nG04 #@! TF.FileFunction,Copper,L1,Top*\n%ADD10C,1*%\nD10*\nX0Y0D03*\nM02*\n`);
    writeFileSync(join(room, "h.drl"), "M48\n; #@! TF.FileFunction,Plated,1,2,PTH\nMETRIC\nT1C0.8\n%\nT1\nX0.0Y0.0\nM30\n");
    const { status, stderr } = panel([room, "--columns", 2, "--step", 5, 5]);
    assert.equal(status, 0, stderr);
    const [gerber, drill] = ["a.gbr", "h.drl"].map((name) => readFileSync(join(room, "panel", name), "utf8"));
    assert.match(gerber, /^%TF\.Part,Array\*%\n%TF\.FileFunction,Copper,L1,Top\*%$/m);
    assert.doesNotMatch(gerber, /MD5/);
    assert.match(drill, /^; #@! TF\.FileFunction,Plated,1,2,PTH$/m);
  });

  test("is compared: a panel of another step, of another board or without a board is found", () => {
    needProgram();
    const bytes = readFileSync(join(BLINKER, "blinker-F_Cu.gbr")), board = new AskedLayer("gerber", bytes);
    const boards = { columns: 2, rows: 2, step: { x: 32_000_000, y: 24_000_000 } };
    const made = (line) => {
      const text = Buffer.from(board.text()).toString(), end = text.lastIndexOf("%ADD"), at = text.indexOf("\n", end) + 1;
      return new AskedLayer("gerber", Buffer.from(`${text.slice(0, at)}${line}\n${text.slice(at).replace("M02*", "%SR*%\nM02*")}`));
    };
    assert.equal(comparePanel(made("%SRX2Y2I32.0J24.0*%"), board, null, boards, 100_000).differing, 0);
    for (const line of ["%SRX2Y2I32.1J24.0*%", "%SRX2Y1I32.0J24.0*%", "%SRX1Y2I32.0J24.0*%", "%SRX3Y2I32.0J24.0*%", "%SRX2Y2I32.0J23.9*%"]) {
      assert.ok(comparePanel(made(line), board, null, boards, 100_000).differing > 0, line);
    }
  });
});

suite("no panel", () => {
  test("is made where what is clear in one board takes away from the next, and nothing is written", () => {
    const room = newRoom();
    writeFileSync(join(room, "a.gbr"), `${HEAD}%ADD10R,8X8*%\n%ADD11R,4X4*%\nD10*\n%LPC*%\nX0Y0D03*\n%LPD*%\nD11*\nX0Y0D03*\nM02*\n`);
    const { status, stdout, stderr } = panel(["a.gbr", "--columns", 2, "--step", 5, 0], room);
    assert.deepEqual([status, stdout], [2, ""]);
    assert.match(stderr, /^tools\/panel: a\.gbr: \d+ pixels of \d+ differ from the boards, shifted: what is clear in one board takes away/);
    assert.deepEqual(readdirSync(room), ["a.gbr"]);
  });

  test("replaces files of others, but where it is asked to", () => {
    const room = laid([join(BLINKER, "blinker.drl")]), words = [room, "--rows", 2, "--step", 0, 30];
    mkdirSync(join(room, "panel"));
    writeFileSync(join(room, "panel", "blinker.drl"), "mine");
    assert.match(panel(words).stderr, /has files of other origin/);
    assert.equal(readFileSync(join(room, "panel", "blinker.drl"), "utf8"), "mine");
    assert.equal(panel([...words, "--replace"]).status, 0);
    assert.equal(panel(words).status, 0, "its own files are replaced");
  });
});

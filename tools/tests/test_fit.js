// tools/fit: a window around all that the files have, in a script that runs as it is printed.

import assert from "node:assert/strict";
import { copyFileSync, mkdirSync, readFileSync, readdirSync, writeFileSync } from "node:fs";
import { join } from "node:path";
import { kindOf } from "../../web/board/file_kinds.js";
import { readPbm } from "../../web/bytes/pbm.js";
import { AskedLayer } from "../lib/asked_layer.js";
import { askedBoxes } from "./asked_box.js";
import { part, suite, test } from "./harness.js";
import { CASES, PROGRAM, REPOSITORY, needProgram, newRoom, runProgram, runTool } from "./support.js";

const EXAMPLES = ["blinker", "kicad", "kicad_angles", "one_flash"].map((name) => join(REPOSITORY, "examples", name));
const BOARDS = [...EXAMPLES, ...["altium", "eagle", "fritzing"].map((name) => join(CASES, "board", name))];
// The layers of the examples that have pads at odd angles, which camplot refuses.
const ODD = /windrose-F_(Cu|Mask)\.gbr$/;
const MARGIN = 1_000_000;

// The Gerber and drill files of a folder.
function layersOf(folder) {
  return readdirSync(folder).sort().map((name) => join(folder, name))
    .filter((path) => !path.endsWith("script") && !/\.(md|pbm|png)$/.test(path) && kindOfFile(path));
}

function kindOfFile(path) {
  try {
    return kindOf(readFileSync(path));
  } catch {
    return null;
  }
}

// The files in a room of their own under paths without blanks.
function laid(paths) {
  const room = newRoom();
  return { room, names: paths.map((path, at) => {
    const name = `${at}-${path.split("/").at(-1).replaceAll(" ", "_")}`;
    copyFileSync(path, join(room, name));
    return name;
  }) };
}

function fit(words, folder = undefined) {
  needProgram();
  return runTool("fit", [...words, "--camplot", PROGRAM], folder);
}

function windowOf(script) {
  const [x, y, pitch, width, height] = /^window (.+)$/m.exec(script)[1].split(" ").map(Number);
  return { x, y, pitch, width, height };
}

// The box of a picture's black pixels, in columns and in rows from below; null if there is none.
function blackBox(path) {
  const { width, height, stride, bits } = readPbm(readFileSync(path));
  let left = width, right = -1, top = -1, end = -1;
  for (let row = 0; row < height; row++) {
    for (let column = 0; column < width; column++) {
      if (!(bits[row * stride + (column >> 3)] >> 7 - (column & 7) & 1)) continue;
      left = Math.min(left, column);
      right = Math.max(right, column);
      if (top < 0) top = row;
      end = row;
    }
  }
  return right < 0 ? null : { left, right: right + 1, low: height - end - 1, high: height - top };
}

suite("a script", () => {
  test("runs as it is printed, and the window has all of each board and its margin", () => {
    for (const folder of BOARDS) {
      part(folder, () => {
        const { room, names } = laid(layersOf(folder)), { status, stdout, stderr } = fit(names, room);
        const odd = names.filter((name) => ODD.test(name));
        assert.deepEqual([status, stderr.split("\n").length - 1], [odd.length ? 1 : 0, odd.length], stderr);
        writeFileSync(join(room, "script"), stdout);
        const done = runProgram(PROGRAM, ["script"], room), lines = stdout.trimEnd().split("\n");
        assert.equal(done.status, 0, done.stdout);
        assert.equal(lines.length, 2 * (names.length - odd.length) + 1);
        const window = windowOf(stdout), edge = Math.floor(MARGIN / window.pitch);
        assert.equal(window.pitch, 25_400);
        const boxes = lines.filter((line) => line.startsWith("plot ")).map((line) => blackBox(join(room, line.split(" ")[2])));
        const found = boxes.filter((box) => box), least = (key) => Math.min(...found.map((box) => box[key]));
        const most = (key) => Math.max(...found.map((box) => box[key]));
        // A pixel is black if its centre is, so the black ones may end up to a pixel before the box.
        for (const rim of [least("left"), least("low"), window.width - most("right"), window.height - most("high")]) {
          assert.ok(edge <= rim && rim <= edge + 3, `${rim} pixels of margin, and not ${edge}`);
        }
      });
    }
  });

  test("goes into camplot by a pipe", () => {
    needProgram();
    const room = newRoom();
    copyFileSync(join(EXAMPLES[0], "blinker-F_Cu.gbr"), join(room, "top.gbr"));
    const line = '"$0" "$1" top.gbr --dpi 254 --camplot "$2" | "$2" -';
    const done = runProgram("bash", ["-c", line, process.execPath, join(REPOSITORY, "tools", "fit"), PROGRAM], room);
    assert.deepEqual([done.status, done.stderr], [0, ""]);
    assert.match(done.stdout, /^ok 85\nok\nok \d+\n$/);
    assert.ok(blackBox(join(room, "top.pbm")));
  });

  test("has the window of tools/board where no outline is named", () => {
    const folder = join(CASES, "board", "eagle"), { room, names } = laid(layersOf(folder));
    const { stdout } = fit(names, room), out = join(newRoom(), "out");
    assert.equal(runTool("board", [folder, "--out", out, "--camplot", PROGRAM]).status, 0);
    const line = (text) => /^window .+$/m.exec(text)[0];
    assert.equal(line(stdout), line(readFileSync(join(out, "script"), "utf8")));
  });

  test("its boxes lie in those that the station answers, and are the same to a nm but for arcs", () => {
    needProgram();
    const paths = [...BOARDS.flatMap(layersOf).filter((path) => !ODD.test(path)), join(CASES, "items", "kinds.gbr"),
      join(CASES, "items", "holes.drl")];
    askedBoxes(paths).forEach(([left, low, right, high], at) => {
      part(paths[at], () => {
        const layer = new AskedLayer(kindOfFile(paths[at]), readFileSync(paths[at])), box = layer.box();
        const insides = [box.left - left, box.low - low, right - box.right, high - box.high];
        // The station's box of an arc is that of its circle.
        const most = [...layer.items()].some((words) => words.startsWith("arc ")) ? Infinity : 1;
        assert.ok(insides.every((inside) => -1 < inside && inside < most), `${insides}`);
      });
    });
  });
});

suite("the pitch", () => {
  const board = () => laid([join(EXAMPLES[0], "blinker-F_Cu.gbr"), join(EXAMPLES[0], "blinker.drl")]);

  test("is what is asked for", () => {
    for (const [words, pitch] of /** @type {[(string | number)[], number][]} */ ([
      [[], 25_400], [["--dpi", 254], 100_000], [["--pitch", 33_333], 33_333]])) {
      const { room, names } = board(), { status, stdout, stderr } = fit([...names, ...words], room);
      assert.deepEqual([status, stderr, windowOf(stdout).pitch], [0, "", pitch]);
    }
  });

  test("is coarser if a window cannot have so many pixels, and it is said", () => {
    for (const [words, asked] of [[["--pitch", 1], "pixels of 1 nm"], [["--dpi", 25_400_000], "25400000 pixels an inch"]]) {
      const { room, names } = board(), { status, stdout, stderr } = fit([...names, ...words], room);
      const { pitch, width, height } = windowOf(stdout);
      assert.equal(status, 0);
      assert.equal(stderr, `tools/fit: ${asked} would be more than 32768 a side: the pitch is ${pitch} nm\n`);
      assert.ok(Math.max(width, height) <= 32_768 && Math.max(width, height) > 32_700, `${width} ${height}`);
      writeFileSync(join(room, "script"), stdout.replace(/^plot .*\n/gm, ""));
      assert.equal(runProgram(PROGRAM, ["script"], room).status, 0);
    }
  });

  test("is given once, within the limits", () => {
    const { room, names } = board();
    for (const words of [["--dpi", 0], ["--pitch", 0], ["--pitch", 100_000_001], ["--dpi", "x"], ["--dpi", 9, "--pitch", 9]]) {
      const { status, stdout } = fit([...names, ...words], room);
      assert.deepEqual([status, stdout], [2, ""], words.join(" "));
    }
  });
});

suite("files", () => {
  test("a refused one is left out, and the reason is printed", () => {
    const { room, names } = laid([join(CASES, "board", "refused", "b-PTH.drl"), join(EXAMPLES[3], "a.gbr")]);
    const { status, stdout, stderr } = fit(names, room);
    assert.equal(status, 1);
    assert.ok(stderr.startsWith(`${names[0]}: refused 45, no point: `), stderr);
    assert.match(stdout, /^load \S+ gerber 1-a\.gbr\nwindow .*\nplot \S+ \S+\.pbm\n$/);
    assert.deepEqual([fit([names[0]], room).status, fit([names[0]], room).stdout], [2, ""]);
  });

  test("those that paint nothing have no window", () => {
    const room = newRoom();
    writeFileSync(join(room, "empty.gbr"), "%FSLAX46Y46*%\n%MOMM*%\nM02*\n");
    const { status, stdout, stderr } = fit(["empty.gbr"], room);
    assert.deepEqual([status, stdout], [2, ""]);
    assert.match(stderr, /paints anything/);
  });

  test("a path that no script can have is refused with what to do", () => {
    const room = newRoom();
    for (const name of ["a b.gbr", "größe.gbr", `${"x".repeat(250)}.gbr`]) {
      copyFileSync(join(EXAMPLES[3], "a.gbr"), join(room, name));
      const given = name.length > 250 ? `./././${name}` : name, { status, stdout, stderr } = fit([given], room);
      assert.deepEqual([status, stdout], [2, ""], name);
      const [, link] = /by (ln -s .+?), and name that/.exec(stderr);
      runProgram("bash", ["-c", link], room);
      const [short] = /\S+$/.exec(link);
      assert.equal(fit([short], room).status, 0, link);
    }
  });

  test("what is no file, and too many", () => {
    const room = newRoom();
    mkdirSync(join(room, "folder"));
    assert.match(fit(["folder"], room).stderr, /is a folder: name its files; tools\/board finds/);
    assert.match(fit(["nowhere"], room).stderr, /nowhere does not exist/);
    copyFileSync(join(EXAMPLES[3], "a.gbr"), join(room, "a.gbr"));
    assert.match(fit(Array(33).fill("a.gbr"), room).stderr, /33 files: a script loads at most 32/);
    assert.equal(fit(Array(32).fill("a.gbr"), room).status, 0);
    assert.match(runTool("fit", ["a.gbr", "--camplot", join(room, "none")], room).stderr, /none does not exist/);
  });
});

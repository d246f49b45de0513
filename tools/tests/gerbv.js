// By hand, where Debian's gerbv is installed: what gerbv draws of each case before and after a tool rewrote it, and what
// camplot plots of it.

import { spawnSync } from "node:child_process";
import { copyFileSync, existsSync, mkdtempSync, readFileSync, readdirSync, rmSync, statSync, writeFileSync } from "node:fs";
import { tmpdir } from "node:os";
import { join } from "node:path";
import { perform, say, DONE, Failure } from "../lib/command.js";
import { CASES, PROGRAM, runProgram, runTool } from "./support.js";
import { Png } from "./pictures.js";

/** Corner and pitch in nm, and pixels across and down. */
const WINDOW = { x: -10_000_000, y: -5_000_000, pitch: 25_400, width: 2600, height: 1600 };

const COMMAND = {
  tool: "tools/tests/against_gerbv",
  about: `A line for each case: how many pixels are black in gerbv's picture of the original; then, of camplot's picture
of the text that a tool made of it, how many differ from gerbv's picture of the original and from gerbv's picture of that
text, and how many of these lie at no edge.

  tools/tests/against_gerbv xnc                     the forms of test_to_xnc
  tools/tests/against_gerbv gerber                  the forms of test_to_gerber
  tools/tests/against_gerbv gerber --board FOLDER   files of one's own, with --nearest

gerbv snaps to its grid and flattens arcs, so that pixels at edges may differ between it and camplot. Of some originals it
draws another picture than they tell: see docs/tools.md. Of what it draws nothing of, "none" is told.`,
  operand: { name: "KIND", help: "xnc or gerber" },
  options: [{ name: "--board", value: "FOLDER", help: "files of one's own" }],
};

/** gerbv's picture, a byte a pixel, 1 where it is black; null where it draws none. */
function blackOfGerbv(folder, file) {
  const { x, y, pitch, width, height } = WINDOW;
  const picture = join(folder, "gerbv.png");
  rmSync(picture, { force: true });
  const dpi = 25_400_000 / pitch;
  const sides = [width, height].map((side) => ((side + 0.4) / dpi).toFixed(6)).join("x");
  spawnSync("gerbv", ["-x", "png", "-o", "gerbv.png", "-u", "mm", "-O", `${x / 1e6};${y / 1e6}`, "-W", sides,
    `--dpi=${dpi}`, "--border=0", "-b", "#ffffff", "-f", "#000000ff", file], { cwd: folder, timeout: 120_000 });
  if (!existsSync(picture)) return null;
  const png = new Png(readFileSync(picture));
  const black = new Uint8Array(width * height);
  for (let row = 0; row < height; row++) {
    for (let column = 0; column < width; column++) {
      black[row * width + column] = png.pixels[row * png.stride + column * png.channels] < 128 ? 1 : 0;
    }
  }
  return black;
}

/** camplot's picture, likewise. */
function blackOfCamplot(folder, file, kind) {
  if (!existsSync(PROGRAM)) return null;
  const { x, y, pitch, width, height } = WINDOW;
  writeFileSync(join(folder, "script"),
    `load a ${kind} ${file}\nwindow ${x} ${y} ${pitch} ${width} ${height}\nplot a a.pbm\n`);
  const { stdout } = runProgram(PROGRAM, ["script"], folder);
  if (stdout.includes("refused")) {
    say(stdout.trimEnd());
    return null;
  }
  const data = readFileSync(join(folder, "a.pbm")).subarray(`P4\n${width} ${height}\n`.length);
  const stride = Math.ceil(width / 8);
  return Uint8Array.from({ length: width * height }, (_, at) => {
    const [row, column] = [Math.floor(at / width), at % width];
    return (data[row * stride + (column >> 3)] >> (7 - (column & 7))) & 1;
  });
}

function count(pixels) {
  return pixels.reduce((sum, value) => sum + value, 0);
}

function differing(one, other) {
  return one && other ? one.reduce((sum, value, at) => sum + (value === other[at] ? 0 : 1), 0) : "none";
}

/** How many pixels differ whose eight neighbours all have one colour in the other picture. */
function offEdges(one, other) {
  if (!one || !other) return "none";
  const { width, height } = WINDOW;
  let found = 0;
  for (let row = 1; row < height - 1; row++) {
    for (let column = 1; column < width - 1; column++) {
      const at = row * width + column;
      if (one[at] === other[at]) continue;
      const near = [-width, 0, width].flatMap((step) => [at + step - 1, at + step, at + step + 1]);
      if (near.every((place) => other[place] === other[at])) found++;
    }
  }
  return found;
}

function compare(tool, kind, folder, file, options, name) {
  const room = mkdtempSync(join(tmpdir(), "camplot-gerbv-"));
  try {
    for (const other of readdirSync(folder)) {
      if (statSync(join(folder, other)).isFile()) copyFileSync(join(folder, other), join(room, other));
    }
    const { status, stderr } = runTool(tool, [file, "-o", "made", ...options], room);
    if (status !== 0) {
      say(`${name.padEnd(28)} refused: ${stderr.split("\n")[0]}`);
      return;
    }
    const before = blackOfGerbv(room, file);
    const after = blackOfGerbv(room, "made");
    const plotted = blackOfCamplot(room, "made", kind);
    const told = (other) => `${differing(other, plotted)} (${offEdges(other, plotted)})`.padStart(14);
    say(`${name.padEnd(28)} black ${String(before ? count(before) : 0).padStart(7)}  camplot and original ${told(before)}  ` +
      `camplot and text ${told(after)}`);
  } finally {
    rmSync(room, { recursive: true, force: true });
  }
}

function run({ operands: [kind], board }) {
  if (kind !== "xnc" && kind !== "gerber") throw new Failure(`${kind}: xnc or gerber is wanted`);
  if (spawnSync("gerbv", ["--version"]).error) throw new Failure("gerbv is not installed");
  const tool = `to_${kind}`;
  const layer = kind === "xnc" ? "drill" : "gerber";
  if (board) {
    const options = kind === "xnc" ? [] : ["--nearest"];
    for (const file of readdirSync(board).sort()) compare(tool, layer, board, file, options, file);
    return DONE;
  }
  const forms = JSON.parse(readFileSync(join(CASES, kind === "xnc" ? "drill_forms.json" : "gerber_forms.json"), "utf8"));
  const folder = join(CASES, kind === "xnc" ? "drill" : "old_gerber");
  for (const { file, options } of forms) compare(tool, layer, folder, file, options, file);
  if (kind === "gerber") {
    for (const name of readdirSync(join(CASES, "to_gerber"))) {
      const options = readFileSync(join(CASES, "to_gerber", name, "options"), "utf8").split(/\s+/).filter((word) => word);
      compare(tool, layer, join(CASES, "to_gerber", name), "file.gbr", options, name);
    }
  }
  return DONE;
}

perform(COMMAND, run, process.argv.slice(2), "against_gerbv");

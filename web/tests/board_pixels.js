// The pixels of the board's view beside a plain program: the program plots the layers in a window of the view's pixels that has the
// whole board, tools/tests/plain_materials.js gives the materials, and four of them are one pixel of the canvas.

import assert from "node:assert/strict";
import { join } from "node:path";
import { readFileSync, writeFileSync } from "node:fs";
import { AskedLayer } from "../../tools/lib/asked_layer.js";
import { Grid, closedLines, linesOfItem, pixelsOfLines } from "../nets/index.js";
import { coloursOf } from "../materials/index.js";
import { readPbm } from "../bytes/index.js";
import { plainMaterials } from "../../tools/tests/plain_materials.js";
import { room, runProgram } from "./support.js";

const MATERIALS = ["nothing", "laminate", "mask", "mask over copper", "copper", "silkscreen", "plated wall"];
// Rulers lie over the canvas at two edges.
const EDGE = 26;

// What the layers of examples/kicad are, by the ends of their names.
export const KICAD = { "F_Cu.gbr": ["top", "Copper,L1,Top"], "B_Cu.gbr": ["bottom", "Copper,L2,Bot"], "F_Mask.gbr": ["top-mask", null],
  "B_Mask.gbr": ["bottom-mask", null], "F_Silkscreen.gbr": ["top-silk", null], "Edge_Cuts.gbr": ["outline", null],
  "NPTH.drl": ["nonplated", "NonPlated,1,2,NPTH"], "-PTH.drl": ["plated", "Plated,1,2,PTH"] };

const known = (name) => KICAD[Object.keys(KICAD).find((end) => name.endsWith(end))];

// The pictures of files in a window, by the program.
function plotted(files, window) {
  const folder = room(), { x, y, pitch, width, height } = window;
  const lines = files.flatMap(({ name, bytes }, at) => {
    writeFileSync(join(folder, name), bytes);
    return [`load l${at} ${name.endsWith(".drl") ? "drill" : "gerber"} ${name}`];
  });
  writeFileSync(join(folder, "script"), [...lines, `window ${x} ${y} ${pitch} ${width} ${height}`,
    ...files.map((_, at) => `plot l${at} l${at}.pbm`)].map((line) => `${line}\n`).join(""));
  const { stdout, status } = runProgram(folder, "script");
  assert.equal(status, 0, stdout);
  return files.map(({ name, bytes }, at) => ({ shows: known(name)[0], said: known(name)[1],
    picture: known(name)[0] === "outline" ? outlined(bytes, window) : readPbm(readFileSync(join(folder, `l${at}.pbm`))) }));
}

// The lines of an outline, a pixel wide as the definition has them: those that the nets cut copper along.
function outlined(bytes, window) {
  const { closed } = closedLines([...new AskedLayer("gerber", bytes).items()].flatMap(linesOfItem)), { width, height } = window, stride = width + 7 >> 3;
  const { offsets, starts, ends } = pixelsOfLines(closed, new Grid(window)), bits = new Uint8Array(stride * height);
  for (let row = 0; row < height; row++) {
    for (let at = offsets[row]; at < offsets[row + 1]; at++) {
      for (let column = starts[at]; column < ends[at]; column++) bits[row * stride + (column >> 3)] |= 128 >> (column & 7);
    }
  }
  return { width, height, stride, bits };
}

// The view: its canvas, and where its pixels lie.
const seen = (browser) => browser.ask(`(() => { const { view } = camplot, { left, top, pitch, width, height, isMirrored } = view;
  const { data } = view.context.getImageData(0, 0, width, height), [, low, lower, half] = view.window().split(" ").map(Number);
  const style = document.createElement("canvas").getContext("2d");
  style.fillStyle = view.colours().board.trim();
  return { left, top, pitch, width, height, isMirrored, low, lower, half, board: style.fillStyle,
    data: btoa(Array.from(data, (byte) => String.fromCharCode(byte)).join("")) }; })()`);

const channels = (colour) => [1, 3, 5].map((at) => Number.parseInt(colour.slice(at, at + 2), 16));

// The mean of four materials over the colour of the board.
function meanOf(names, colours, under) {
  const there = names.filter((name) => name !== "nothing").map((name) => channels(colours[MATERIALS.indexOf(name)]));
  const part = there.length / 4;
  return [0, 1, 2].map((at) => there.reduce((sum, colour) => sum + colour[at], 0) / 4 + (1 - part) * under[at]);
}

/**
 * Compares each pixel of the canvas; answers how many are of one material, by its name, and how many of several.
 * @param {object} browser
 * @param {{name: string, bytes: Buffer}[]} files
 * @param {{left: number, low: number, right: number, high: number}} box of the whole board, in nm
 * @param {{side: "top" | "bottom", mask?: string, finish?: string}} what
 */
export async function comparePixels(browser, files, box, { side, mask = "green", finish = "tin" }) {
  const view = await seen(browser), { half } = view, bytes = Buffer.from(view.data, "base64"), under = channels(view.board);
  const before = (from, to) => Math.max(0, Math.ceil((from - to) / half) + 2);
  const [columns, rows] = [before(view.left, box.left), before(view.top - view.height * view.pitch, box.low)];
  const x = view.left - columns * half, y = view.top - view.height * view.pitch - rows * half;
  const window = { x, y, pitch: half, width: Math.max(columns + 2 * view.width, Math.ceil((box.right - x) / half) + 2),
    height: Math.max(rows + 2 * view.height, Math.ceil((box.high - y) / half) + 2) };
  const layers = plotted(files, window);
  const names = plainMaterials(layers, side, half), colours = coloursOf(mask, finish), counts = new Map();
  const at = (column, row) => names[row][side === "top" ? column : window.width - 1 - column];
  const first = window.height - rows - 2 * view.height;
  for (let row = EDGE; row < view.height; row++) {
    for (let column = EDGE; column < view.width; column++) {
      const upright = view.isMirrored ? view.width - 1 - column : column, [left, upper] = [columns + 2 * upright, first + 2 * row];
      const four = [at(left, upper), at(left + 1, upper), at(left, upper + 1), at(left + 1, upper + 1)], wanted = meanOf(four, colours, under);
      const to = 4 * (row * view.width + column), found = [...bytes.subarray(to, to + 3)];
      if (found.some((value, channel) => Math.abs(value - wanted[channel]) > (four.includes("nothing") ? 2 : 0.51))) {
        assert.fail(`${column}, ${row}: ${found} and not ${wanted}: ${four}`);
      }
      const name = new Set(four).size === 1 ? four[0] : "several";
      counts.set(name, (counts.get(name) ?? 0) + 1);
    }
  }
  return counts;
}

// tools/panel: several copies of a board, layer by layer, to be made as one.

import { basename, dirname, join } from "node:path";
import { dropped, droppedWords } from "../../web/attributes/index.js";
import { joined, recogniseFiles } from "../../web/board/index.js";
import { counted } from "../../web/nets/index.js";
import { loadedBy } from "./asked.js";
import { Call, DONE, Failure, perform, say } from "./command.js";
import { pathsBox } from "./contours.js";
import { bytesOf, inputs } from "./inputs.js";
import { neededModule } from "./module.js";
import { option } from "./options.js";
import { sayJson } from "./output.js";
import { boardLayer, mmOf, panelLayer, railLayer } from "./panel_layers.js";
import { comparePanel } from "./panel_check.js";
import { askedPitch } from "./pixels.js";
import { called } from "./places.js";
import { Room } from "./rooms.js";
import { checkProgram } from "./station.js";

// Pixels by which a panel is compared, in nm, where the call asks for none.
const COARSE = 100_000;
const MOST_BOARDS = 10_000;
const RAIL_FILE = "panel-outline.gbr";

const TOOL = called("panel");
export const COMMAND = {
  tool: TOOL,
  about: `Writes the layers of a panel: copies of a board in columns and rows, to be made as one.

  ${TOOL} FOLDER --columns 2 --rows 3 --step 32 24      copies at steps of 32 and 24 mm, into FOLDER/panel
  ${TOOL} FOLDER --columns 2 --rows 3 --spacing 2mm     2 mm between the outlines of two boards
  ${TOOL} top.gbr holes.drl --columns 4 --step 32 0 --rail 5mm -o out

The first board stays where it is; the others stand to the right of it and above it. Each Gerber layer becomes one repeat
(%SR..*%) of its items; a repeat of its own is written out before, since no repeat stands in another one. In a drill file
the holes of a tool are written for each board. The outline of each board stays. --rail draws a rectangle around all boards,
with a line of 0.1 mm, in the layer of the outline, or in a file of its own if there is none.

It compares each layer with the board's before it writes any: each board of the panel has to be the picture of the one, shifted,
pixel by pixel, at --pitch or --dpi (100um). camplot loads each. What holds of one board alone is left out: attributes of
apertures and objects. %TF.Part becomes Array.

It writes files of the same names into the folder of --out. If that folder has anything that it did not write itself, or that
was changed since, it stops, unless --replace is given. Exit status 0: written; 2: nothing was written; 3: standard output
cannot be written.`,
  operand: { name: "FOLDER|FILE", isMany: true },
  options: [option("--columns"), option("--rows"), option("--step"), option("--spacing"), option("--rail"),
    option("--dpi"), option("--pitch", " (100um)"), option("--out", ": a folder; by default `panel` in the folder of the files"),
    option("--replace"), option("--json"), option("--camplot")],
};

/** @typedef {Calls.Asked<typeof COMMAND>} Options */
/** @typedef {import("./panel_layers.js").Boards} Boards */
/** @typedef {import("./asked_layer.js").AskedLayer} AskedLayer */

/**
 * A layer of the board, ready to be repeated, and how many repeats of its own were written out.
 * @typedef {{layer: import("../../web/board/index.js").Layer, bytes: Uint8Array, board: AskedLayer, repeats: number}} Ready
 */

/**
 * A layer of the panel, how many items of a board it has, how many pixels were compared, and what was left out.
 * @typedef {{name: string, text: Uint8Array, items: number, repeats: number, pixels: number, lost: string[], loaded: string}} Made
 */

/** @param {Board.Box} box */
const sideOf = ({ left, low, right, high }) => ({ x: right - left, y: high - low });
/** @param {number} nm */
const shown = (nm) => String(Number(mmOf(nm)));

// The layers of the board, each ready to be repeated, and the files that are none.
/** @param {string[]} operands */
function boardOf(operands) {
  const { files, areNamed, folder, notes } = inputs(operands), { layers, others } = recogniseFiles(files, areNamed);
  if (!layers.length) throw new Failure(`no layer is recognised among ${files.length} files of ${operands[0]}`);
  const names = layers.map(({ file }) => file.name), twice = names.find((name, at) => names.indexOf(name) < at);
  if (twice !== undefined) throw new Failure(`two of the files are called ${twice}, and a panel has one of each name`);
  const made = layers.map((layer) => {
    const bytes = bytesOf(layer.file), { layer: board, repeats } = boardLayer(layer.kind, bytes, layer.file.name);
    return { layer, bytes, board, repeats };
  });
  return { layers: made, folder: join(dirname(folder), "panel"),
    notes: [...others.map(({ name }) => `left out, since it is not recognised as a layer: ${name}`), ...notes] };
}

/** @param {Ready} layer */
const isOutline = ({ layer }) => layer.layerFunction.name === "outline";

// The box of the outline's paths, else of all that is painted.
/** @param {Ready[]} layers */
function boardBox(layers) {
  const outline = joined(layers.filter(isOutline).map(({ board }) => pathsBox([...board.items()])));
  return { outline, box: outline ?? joined(layers.map(({ board }) => board.box())) };
}

/** @param {Options} options @param {Board.Box | null} outline */
function stepOf({ step, spacing, columns, rows }, outline) {
  if (step !== null) return { x: step[0], y: step[1] };
  if (columns * rows === 1 || spacing === null) return { x: 0, y: 0 };
  if (!outline) throw new Failure("--spacing is between outlines, and no layer of an outline is among the files: give --step X Y");
  const { x, y } = sideOf(outline);
  return { x: x + spacing, y: y + spacing };
}

// Boards that reach into one another are no panel.
/** @param {Boards} boards @param {Board.Box | null} outline */
function checkApart({ columns, rows, step }, outline) {
  if (!outline) return;
  const { x, y } = sideOf(outline);
  if (columns > 1 && step.x < x || rows > 1 && step.y < y) {
    const outlined = `${shown(x)} x ${shown(y)} mm`;
    throw new Failure(`the boards would overlap: the outline is ${outlined}, and --step ${shown(step.x)} ${shown(step.y)}`);
  }
}

/** @param {Options} options */
function checkCall({ columns, rows, step, spacing, rail }) {
  if (columns * rows === 1 && rail === null) throw new Call("a panel of one board: give --columns or --rows");
  if (columns * rows > MOST_BOARDS) throw new Call(`${columns} x ${rows} boards: a panel has at most ${MOST_BOARDS}`);
  if (step !== null && spacing !== null) throw new Call("--step and --spacing both tell where the boards stand: give one of them");
  if (columns * rows > 1 && step === null && spacing === null) throw new Call("give --step X Y, or --spacing LENGTH");
  if (step !== null && (columns > 1 && step[0] === 0 || rows > 1 && step[1] === 0)) {
    throw new Call(`--step ${shown(step[0])} ${shown(step[1])}: the boards would lie on one another`);
  }
}

// The box of the panel, and the frame of its rail, whose inner edge it is.
/** @param {Board.Box} box @param {Boards} boards @param {number | null} rail */
function frameOf(box, { columns, rows, step }, rail) {
  const { left, low, right, high } = box, wide = rail ?? 0;
  return { left: left - wide, low: low - wide, right: right + (columns - 1) * step.x + wide, high: high + (rows - 1) * step.y + wide };
}

// A layer of the panel, which was compared.
/**
 * @param {Ready} layer
 * @param {Boards} boards
 * @param {Board.Box | null} frame
 * @param {{pitch: number, camplot: string}} how
 * @returns {Made}
 */
function madeLayer({ layer, bytes, board, repeats }, boards, frame, { pitch, camplot }) {
  const { name } = layer.file, { layer: panel, text } = panelLayer(layer.kind, board, bytes, name, boards, frame);
  const { isRefused, told } = loadedBy(camplot, layer.kind, text);
  if (isRefused) throw new Failure(`${name}: ${told}`);
  const rail = frame ? railLayer(frame, name) : null, { pixels, differing } = comparePanel(panel, board, rail, boards, pitch);
  if (differing) {
    throw new Failure(`${name}: ${counted(differing, "pixel")} of ${pixels} differ from the boards, shifted: what is clear in one board `
      + "takes away from the next: larger steps keep them apart");
  }
  const lost = dropped(bytes).filter(({ kind }) => kind !== "TF").map(droppedWords);
  return { name, text, items: board.count, repeats, pixels, lost, loaded: told };
}

/** @param {Made} made @param {number} count */
function tellLayer({ name, items, repeats, pixels, lost, loaded }, count) {
  const own = repeats ? `; ${counted(repeats, "repeat")} of its own written out` : "";
  say(`${name}: ${counted(items, "item")} for each board${own}; ${loaded}; ${count} boards as the one, in ${pixels} pixels${
    lost.length ? `; left out: ${lost.join(", ")}` : ""}`);
}

/** @param {Made[]} made @param {Options} options @param {string} folder */
function writeLayers(made, options, folder) {
  const room = new Room(options.out ?? folder, options.replace);
  room.series.plan(made.map(({ name }) => basename(name)));
  room.fill(() => made.forEach(({ name, text }) => room.write(basename(name), text)));
  return room.folder;
}

// A file for the rail, where the board has no outline.
/** @param {Board.Box} frame @returns {Made} */
function railFile(frame) {
  return { name: RAIL_FILE, text: railLayer(frame, RAIL_FILE).text(), items: 0, repeats: 0, pixels: 0, lost: [], loaded: "the rail alone" };
}

/** @param {Options} options */
function run(options) {
  checkCall(options);
  const pitch = askedPitch(options, COARSE);
  checkProgram(options.camplot);
  neededModule();
  const { layers, folder, notes } = boardOf(options.operands), { outline, box } = boardBox(layers);
  if (!box) throw new Failure("no layer paints anything");
  const { columns, rows, rail } = options, boards = { columns, rows, step: stepOf(options, outline) };
  checkApart(boards, outline);
  const frame = frameOf(box, boards, rail), railed = rail === null ? undefined : layers.find(isOutline);
  const made = layers.map((layer) => madeLayer(layer, boards, layer === railed ? frame : null, { ...options, pitch }));
  const all = rail !== null && !railed ? [...made, railFile(frame)] : made, written = writeLayers(all, options, folder);
  const side = sideOf(frame);
  if (options.json) {
    const told = all.map(({ text, ...rest }) => ({ ...rest, bytes: text.length }));
    sayJson({ folder: written, boards, box: frame, pitch, notes, layers: told });
    return DONE;
  }
  for (const note of notes) say(note);
  const steps = `${shown(boards.step.x)} and ${shown(boards.step.y)} mm`;
  say(`${columns} x ${rows} boards at steps of ${steps}: ${shown(side.x)} x ${shown(side.y)} mm`);
  for (const layer of all) tellLayer(layer, columns * rows);
  say(`written: ${counted(all.length, "file")} into ${written}`);
  return DONE;
}

/**
 * Runs the command with the words of a call.
 * @param {string[]} words
 */
export function main(words) {
  return perform(COMMAND, run, words);
}

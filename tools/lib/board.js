// tools/board: a board as pictures, and in a page.

import { existsSync } from "node:fs";
import { join } from "node:path";
import { latin1 } from "../../web/bytes/index.js";
import { describeWindow, recogniseFiles, scriptLines, windowAround } from "../../web/board/index.js";
import { SIDES } from "../../web/materials/index.js";
import { Board } from "./boards.js";
import { DONE, Failure, REFUSED, perform, say } from "./command.js";
import { refusedLine, toldLine } from "./edit_lines.js";
import { readBytes } from "./files.js";
import { bytesOf, inputs, pathOf } from "./inputs.js";
import { mended } from "./mending.js";
import { neededModule } from "./module.js";
import { option } from "./options.js";
import { sayJson } from "./output.js";
import { pageOf } from "./pages.js";
import { askedPitch, coarser } from "./pixels.js";
import { builtPage, called, documentAt, remedy } from "./places.js";
import { Room } from "./rooms.js";
import { drawSides, titleOf } from "./sides.js";
import { checkProgram } from "./station.js";

const PAGE = "index.html";
const TOOL = called("board");
export const COMMAND = {
  tool: TOOL,
  about: `Plots a board: all its layers in one window, as PBM pictures, and writes the editor in a page with the board in it.

  ${TOOL} FOLDER                   the layers among the files of a folder, plotted into FOLDER/board
  ${TOOL} top.gbr holes.drl        these files, whatever their names are, plotted into \`board\` next to the first
  ${TOOL} FOLDER --pitch 10um      with pixels of 10 µm; 1000 an inch, of 25.4 µm, by default
  ${TOOL} FOLDER --mask blue --finish gold
                                   the colours of the pictures of both sides
  ${TOOL} FOLDER --edits FILE      then runs the lines of FILE: edits, which the page runs too, and further plots,
                                   which the page shows

It recognises what a file shows by its attribute %TF.FileFunction%, else by the names that KiCad, Altium, EAGLE, Fritzing
and pcb-rnd give. If FOLDER has no drill file and one folder in it has some, as drill/, they are taken too. One window lies
around the outline, or around all layers if no outline loads.

It writes into the folder of --out:
  index.html   the page: open it in a browser; it needs no server and no network. It is camplot.html with the layers'
               files inside; if there is none, there is no page
  NAME.pbm     a picture for each layer
  top.png, bottom.png
               both sides as they will be made, with their mask, silkscreen and holes; top.svg and bottom.svg are the same
               with their size in mm. The page has them too
  script       what camplot ran there, with plain names; run it again by \`camplot script\` in that folder
  replies      each of its lines after its reply
  files/       the layers' files under plain names
  texts/       the layers' canonical texts, for ${called("items")}

It prints the result of each layer, and of a refused one how it is converted if a converter helps. If that folder has
anything that it did not write itself, or that was changed since, it stops, unless --replace is given. The exit status is 0;
1 if a layer or a line was refused; 2 if nothing could be done; 3 if standard output cannot be written.`,
  operand: { name: "FOLDER|FILE", isMany: true },
  options: [option("--dpi", " (1000)"), option("--pitch"), option("--mask", " (green)"), option("--finish", " (tin)"),
    option("--edits", ": after the plots; - is standard input"), option("--page"), option("--out", ": a folder; by default `board` in the folder of the files"), option("--replace"),
    option("--json"), option("--camplot")],
};

/** @typedef {Calls.Asked<typeof COMMAND>} Options */
/** @typedef {import("../../web/board/index.js").Layer} Layer */
/** @typedef {import("../../web/board/index.js").PlotWindow} PlotWindow */
/** @typedef {ReturnType<typeof drawSides>} Sides */

// How a refused layer becomes one that loads; null where no converter helps, or it loads.
/** @param {Board} board @param {Layer} layer */
function wayOf(board, layer) {
  if (board.loadOf(layer).isAccepted) return null;
  return mended(layer.kind, bytesOf(layer.file), pathOf(layer.file));
}

/** @param {Board} board */
function tellLayers(board) {
  const width = Math.max(...board.layers.map((layer) => layer.name.length)), blank = " ".repeat(width);
  for (const layer of board.layers) {
    say(`${layer.name.padEnd(width)}  ${layer.layerFunction.label}, by ${layer.toldBy}: ${layer.file.name}`);
    say(`${blank}  ${board.outcome(layer)}`);
    const way = wayOf(board, layer);
    if (way !== null) say(`${blank}  ${way}`);
  }
  if (board.isAnyRefused()) say(`${documentAt("refusals.md")} explains what to do about each refusal, in the CAD program too`);
}

// The refused lines of --edits.
/** @param {Board} board @param {string | null} edits */
function refusedLines(board, edits) {
  return edits === null ? [] : board.refusedLines().map((reply) => refusedLine(reply, board.firstOwn, edits));
}

/** @param {Board} board @param {Options} options */
function tellLines(board, { edits }) {
  for (const refused of refusedLines(board, edits)) say(toldLine(refused));
}

// Writes the page, if there is one to fill.
/** @param {Board} board @param {Sides["sides"]} sides @param {string[]} operands @param {string | null} page */
function leavePage(board, sides, operands, page) {
  if (page === null) return null;
  const pictures = sides.map(({ side, small }) => ({ title: titleOf(side), png: small }));
  board.room.write(PAGE, pageOf(page, board.contents(board.title(operands)), pictures));
  return join(board.room.folder, PAGE);
}

// The pictures of both sides, and what lacks of them, each in a line.
/** @param {Sides} drawn @param {Options} options */
function tellSides({ told, sides }, { mask, finish }) {
  if (told !== null) say(told);
  for (const { side, png, svg, lacks } of sides) {
    say(`${png} and ${svg}: ${titleOf(side)}, mask ${mask}, finish ${finish}${lacks.length ? `; ${lacks.join("; ")}` : ""}`);
  }
}

/** @param {string | null} path */
function tellPage(path) {
  const made = "./demo builds it if node is installed, and so does web/build after the C library is proved";
  say(path === null ? `there is no page, since there is no camplot.html: ${remedy(made)}; --page names another` : `the page: ${path}`);
}

/** @param {Board} board @param {PlotWindow | null} window @param {boolean} hasOutline @param {Sides} drawn @param {Options} options */
function tell(board, window, hasOutline, drawn, options) {
  const told = window && coarser(window, options, askedPitch(options));
  if (window) say(`${describeWindow(window, hasOutline)}${told === null ? "" : ` (${told})`}`);
  tellLines(board, options);
  tellLayers(board);
  if (!board.hasPictures()) say("no layer was plotted");
  tellSides(drawn, options);
}

/**
 * @param {Board} board
 * @param {PlotWindow | null} window
 * @param {string | null} page
 * @param {Sides} drawn
 * @param {string[]} leftOut
 * @param {Options} options
 */
function tellJson(board, window, page, drawn, leftOut, options) {
  const layers = board.layers.map((layer) => {
    const { name, kind, layerFunction, toldBy, file, picture } = layer, isPlotted = board.plots.get(name)?.isAccepted ?? false;
    return { name, kind, shows: layerFunction.label, by: toldBy, file: file.name, outcome: board.outcome(layer),
      isLoaded: board.loadOf(layer).isAccepted, picture: isPlotted ? picture : null, mended: wayOf(board, layer) };
  });
  const sides = drawn.sides.map(({ small, ...rest }) => rest);
  sayJson({ folder: board.room.folder, window, layers, sides, lacking: drawn.told, leftOut,
    refusedLines: refusedLines(board, options.edits), page });
}

/**
 * @param {Room} room
 * @param {Layer[]} layers
 * @param {string[]} edits
 * @param {string[]} leftOut
 * @param {string | null} page the one without a board
 * @param {Options} options
 */
function plotInto(room, layers, edits, leftOut, page, options) {
  const board = new Board(layers, room, options.camplot);
  board.load();
  const outline = board.outline(), window = windowAround(outline, board.boxes(), askedPitch(options));
  if (window) board.plot(window, edits);
  const drawn = window ? drawSides(board, window, options) : { told: null, sides: [] };
  if (!options.json) tell(board, window, outline !== null, drawn, options);
  const filled = leavePage(board, drawn.sides, options.operands, page);
  if (options.json) tellJson(board, window, filled, drawn, leftOut, options);
  else tellPage(filled);
  return board.isAnyRefused() ? REFUSED : DONE;
}

// The files that a run leaves, unless something is refused.
/** @param {Layer[]} layers @param {string | null} page */
function plannedFiles(layers, page) {
  return [...layers.flatMap(({ copy, text, picture }) => [copy, text, picture]), "script", "replies",
    ...SIDES.flatMap((side) => [`${side}.png`, `${side}.svg`]), ...page === null ? [] : [PAGE]];
}

/** @param {Options} options */
function run(options) {
  askedPitch(options);
  const { files, areNamed, folder, notes } = inputs(options.operands);
  const { layers, others } = recogniseFiles(files, areNamed), leftOut = others.map(({ name }) => name);
  if (!options.json) {
    for (const name of leftOut) say(`left out, since it is not recognised as a layer: ${name}`);
    for (const note of notes) say(note);
  }
  if (!layers.length) throw new Failure(`no layer is recognised among ${files.length} files of ${options.operands[0]}`);
  const edits = options.edits === null ? [] : scriptLines(latin1(readBytes(options.edits)));
  checkProgram(options.camplot);
  neededModule();
  if (options.page !== null && !existsSync(options.page)) throw new Failure(`${options.page} does not exist`);
  const page = options.page ?? builtPage(), room = new Room(options.out ?? folder, options.replace);
  room.series.plan(plannedFiles(layers, page));
  return room.fill(() => plotInto(room, layers, edits, leftOut, page, options));
}

/**
 * Runs the command with the words of a call.
 * @param {string[]} words
 */
export function main(words) {
  return perform(COMMAND, run, words);
}

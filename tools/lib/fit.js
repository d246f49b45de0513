// tools/fit: the lines of a script that plot files in one window around all of them.

import { existsSync, mkdirSync, mkdtempSync, readdirSync, rmSync, statSync, symlinkSync } from "node:fs";
import { tmpdir } from "node:os";
import { basename, join, resolve } from "node:path";
import { SIDE, endingOf, joined, recogniseFiles, windowAtPitch, windowLine } from "../../web/board/index.js";
import { Board } from "./boards.js";
import { Call, DONE, Failure, REFUSED, complain, perform, say } from "./command.js";
import { headOf, noteWritten, reasonOf, replaceFile } from "./files.js";
import { bytesOf, pathOf } from "./inputs.js";
import { mended } from "./mending.js";
import { neededModule } from "./module.js";
import { option } from "./options.js";
import { printedInto, sayJson } from "./output.js";
import { askedPitch, coarser } from "./pixels.js";
import { called } from "./places.js";
import { Room } from "./rooms.js";
import { Series } from "./series.js";
import { quoted } from "./shell.js";
import { LAYERS, checkProgram } from "./station.js";

// The paths that stand in a script: printable ASCII without a blank (docs/formats.md, "Scripts").
const PATH = /^[!-~]{1,255}$/;

const SCRIPT = "script";
const TOOL = called("fit");
export const COMMAND = {
  tool: TOOL,
  about: `Prints a script that plots these files, all in one window around them: a load for each, the window, and a plot for
each. So this plots a file:

  ${TOOL} top.gbr | camplot -            writes top.pbm
  ${TOOL} *.gbr *.drl -o script          a script to begin from
  ${TOOL} --pitch 10um top.gbr           with pixels of 10 µm; by default 1000 an inch, of 25.4 µm
  ${TOOL} --links job 'Rev A'/*.gbr      the script in a new folder, with links of plain names to the files

What a file is, Gerber or drill, it sees by the first bytes. A layer's name and that of its picture come from what the file
shows, as ${called("board")} names it: top, bottom-mask, holes. The window is the box of all layers with 1 mm on each side. If
that takes more than ${SIDE} pixels a side, it has the finest pitch that does not, and a line on standard error says so.

No line of a script can have a path with a blank or a letter outside of ASCII, or of more than 255 bytes. --links DIR writes
the script into the new folder DIR, and a link with a plain name to each file next to it: run it there.

A file that camplot refuses is left out, with the reason on standard error, and how it is converted if a converter helps. The
exit status is 0; 1 if a file was left out; 2 if nothing could be done; 3 if standard output cannot be written.`,
  operand: { name: "FILE", isMany: true, help: "Gerber and drill files" },
  options: [option("--dpi", " (1000)"), option("--pitch"), option("--links"), option("--out", ": a file"), option("--replace"),
    option("--json"), option("--camplot")],
};

/** @typedef {Calls.Asked<typeof COMMAND>} Options */
/** @typedef {import("../../web/board/index.js").Layer} Layer */
/** @typedef {import("../../web/board/index.js").PlotWindow} PlotWindow */

// Why no line of a script can have a path; null where it can.
/** @param {string} path */
function unfitting(path) {
  if (PATH.test(path)) return null;
  if (Buffer.byteLength(path) > 255 && /^[!-~]*$/.test(path)) return "more than 255 bytes";
  const odd = [...path].find((letter) => !/[!-~]/.test(letter)) ?? "";
  return odd === " " ? "a blank" : /\s|\p{C}/u.test(odd) ? "a character that is not printed" : `the letter ${odd}, outside of ASCII`;
}

/** @param {string} path @param {boolean} hasLinks */
function checkPath(path, hasLinks) {
  if (!existsSync(path)) throw new Failure(`${path} does not exist`);
  if (statSync(path).isDirectory()) {
    throw new Failure(`${path} is a folder: name its files; ${called("board")} finds the layers of a folder`);
  }
  const why = hasLinks ? null : unfitting(path);
  if (why !== null) {
    const plain = path.slice(-200).replace(/[^!-~]+/g, "_");
    throw new Failure(`${path}: no line of a script can have this path, which has ${why}: --links DIR writes the script with `
      + `links of plain names; or give the file a second name, as by ln -s ${quoted(path)} ${quoted(basename(plain))}, and name that`);
  }
}

// The layers in a room of their own, loaded.
/** @param {Layer[]} layers @param {string} program */
function loadedBoard(layers, program) {
  const folder = mkdtempSync(join(tmpdir(), "camplot-fit-"));
  try {
    const board = new Board(layers, new Room(folder, false, true), program);
    board.load();
    return board;
  } finally {
    rmSync(folder, { recursive: true, force: true });
  }
}

/** @param {Layer} layer @param {Board} board */
function tellRefused(layer, board) {
  const path = pathOf(layer.file), way = mended(layer.kind, bytesOf(layer.file), path);
  complain(`${path}: ${board.outcome(layer)}${way === null ? "" : `; ${way}`}`);
}

/** @typedef {{layer: Layer, path: string}} Placed a layer, and the path of its file in the script */

// A folder with the script, and with links of plain names to the layers' files.
/** @param {string} folder @param {Placed[]} placed @param {string} script */
function leaveLinks(folder, placed, script) {
  if (existsSync(folder) && readdirSync(folder).length) throw new Failure(`${folder} has files: --links names a new folder`);
  const series = new Series(folder);
  series.plan([...placed.map(({ path }) => path), SCRIPT]);
  series.during(() => {
    try {
      mkdirSync(folder, { recursive: true });
      for (const { layer, path } of placed) {
        symlinkSync(resolve(pathOf(layer.file)), join(folder, path));
        series.done(path);
      }
    } catch (fault) {
      throw new Failure(`${folder}: cannot be written: ${reasonOf(fault)}`);
    }
    replaceFile(join(folder, SCRIPT), script);
  });
  noteWritten(folder);
}

/** @param {Placed[]} placed @param {PlotWindow} window */
function scriptOf(placed, window) {
  return [...placed.map(({ layer, path }) => `load ${layer.name} ${layer.kind} ${path}`), windowLine(window),
    ...placed.map(({ layer }) => `plot ${layer.name} ${layer.picture}`)];
}

/** @param {Layer[]} layers @param {PlotWindow} window @param {Options} options */
function tellScript(layers, window, { json, links }) {
  const placed = layers.map((layer) => ({ layer, path: links === null ? pathOf(layer.file) : `${layer.name}${endingOf(layer.kind)}` }));
  const lines = scriptOf(placed, window);
  if (links !== null) leaveLinks(links, placed, `${lines.join("\n")}\n`);
  if (json) {
    sayJson({ layers: placed.map(({ layer: { name, kind, file, picture }, path }) => ({ name, kind, file: pathOf(file), path, picture })),
      window, script: lines });
  } else if (links === null) {
    say(lines.join("\n"));
  } else {
    say(`written: ${join(links, SCRIPT)}, with links to ${layers.length} files; cd ${quoted(links)} && camplot script runs it`);
  }
}

/** @param {Options} options */
function fitted(options) {
  const pitch = askedPitch(options), paths = options.operands;
  if (options.links !== null && options.out !== null) throw new Call("--links writes the script into its folder: leave --out away");
  checkProgram(options.camplot);
  neededModule();
  for (const path of paths) checkPath(path, options.links !== null);
  if (paths.length > LAYERS) throw new Failure(`${paths.length} files: a script loads at most ${LAYERS}`);
  const files = paths.map((path) => ({ path, name: basename(path), bytes: headOf(path) }));
  const board = loadedBoard(recogniseFiles(files, true).layers, options.camplot);
  const layers = board.loaded(), box = joined(board.boxes());
  for (const layer of board.layers) if (!layers.includes(layer)) tellRefused(layer, board);
  if (!layers.length) throw new Failure("no file was loaded");
  if (!box) throw new Failure("no item of these files paints anything, so there is no box for a window");
  const window = windowAtPitch(box, pitch), told = coarser(window, options, pitch);
  if (told !== null) complain(`${TOOL}: ${told}`);
  tellScript(layers, window, options);
  return layers.length < board.layers.length ? REFUSED : DONE;
}

/**
 * Runs the command with the words of a call.
 * @param {string[]} words
 */
export function main(words) {
  return perform(COMMAND, (options) => printedInto(options, () => fitted(options)), words);
}

// Both sides of a board as they will be made, as PNG and SVG files.

import { readFileSync } from "node:fs";
import { join, normalize } from "node:path";
import { latin1, latin1Bytes, readPbm, utf8 } from "../../web/bytes/index.js";
import { BY_ATTRIBUTE, DRILL, fileFunction, windowLine, wordsOf } from "../../web/board/index.js";
import { bitsOf, boardOf, coloursOf, isMade, nibbleRows, outlineBits, reduced, sideOf, SIDES, svgOf } from "../../web/materials/index.js";
import { toolsWithoutPlating } from "../../web/nets/index.js";
import { headOf } from "../../web/station/index.js";
import { AskedLayer } from "./asked_layer.js";
import { Failure } from "./command.js";
import { bytesOf } from "./inputs.js";
import { pngOfMaterials, pngWithAlpha } from "./png.js";

/** @typedef {import("../../web/board/index.js").Layer} Layer */
/** @typedef {import("./boards.js").Board} Board */
/** @typedef {import("../../web/board/index.js").PlotWindow} PlotWindow */

/**
 * A side that was drawn: the names of its files, what lacks, and a small picture of it as PNG.
 * @typedef {{side: string, png: string, svg: string, lacks: string[], small: Buffer}} Drawn
 */

/** The most pixels of a picture, and of the longer side of a small one. */
const MOST_PIXELS = 1 << 28, SMALL = 480;
const OUTLINE = "outline";

/** @param {Layer} layer */
const asked = (layer) => new AskedLayer(layer.kind, bytesOf(layer.file));

// The picture of a layer by the module, without the items at some places.
/** @param {Layer} layer @param {PlotWindow} window @param {number[]} dropped */
function plottedBy(layer, window, dropped) {
  const it = asked(layer), lines = [...dropped.slice().reverse().map((place) => `delete it ${place}`), windowLine(window), "plot it it.pbm"];
  for (const line of lines) if (!it.run(line)) throw new Failure(`${layer.file.name}: ${line}: ${latin1(it.station.reply).trimEnd()}`);
  return readPbm(it.station.file);
}

// The files that lines of the user's own wrote, as these name them.
/** @param {Board} board */
function ownFiles(board) {
  const paths = board.edits.filter(({ isAccepted }) => isAccepted).map(({ line }) => wordsOf(line))
    .filter(([command]) => command === "plot" || command === "write").map(([, , path = ""]) => path);
  return new Set(paths.map((path) => normalize(utf8(latin1Bytes(path)))));
}

// The items of plated holes that the file calls not plated, and the others.
/** @param {Layer} layer */
function platingOf(layer) {
  /** @type {Set<number | null>} */
  const tools = layer.kind === DRILL ? toolsWithoutPlating(latin1(bytesOf(layer.file))) : new Set();
  /** @type {{bare: number[], plated: number[]}} */
  const places = { bare: [], plated: [] };
  if (!tools.size) return places;
  Array.from(asked(layer).items(), headOf).forEach(({ number }, place) => places[tools.has(number) ? "bare" : "plated"].push(place));
  return places;
}

// A layer's pictures: one, or of holes those with plating and those without.
/** @param {Layer} layer @param {Board} board @param {PlotWindow} window @param {boolean} isOwn */
function picturesOf(layer, board, window, isOwn) {
  const { layerFunction: { name: shows }, file } = layer, said = fileFunction(file.bytes);
  const plain = () => (isOwn ? plottedBy(layer, window, []) : readPbm(readFileSync(join(board.room.folder, layer.picture))));
  if (shows === OUTLINE) return [{ shows, said, bits: outlineBits(asked(layer).items(), plain(), window) }];
  const { bare, plated } = shows === "plated" || shows === "holes" ? platingOf(layer) : { bare: [], plated: [] };
  if (!bare.length) return [{ shows, said, bits: bitsOf(plain()) }];
  return [{ shows, said, bits: bitsOf(plottedBy(layer, window, bare)) },
    { shows: "nonplated", said: null, bits: bitsOf(plottedBy(layer, window, plated)) }];
}

// What was plotted and is seen on a side, the outline that an attribute names first.
/** @param {Board} board @param {PlotWindow} window */
function plottedLayers(board, window) {
  const own = ownFiles(board), seen = board.loaded().filter(({ name, layerFunction: { name: shows } }) => {
    return (isMade(shows) || shows === OUTLINE) && board.plots.get(name)?.isAccepted;
  });
  /** @param {Layer} layer */
  const isFirst = ({ layerFunction: { name }, toldBy }) => name === OUTLINE && toldBy === BY_ATTRIBUTE;
  return [...seen.filter(isFirst), ...seen.filter((layer) => !isFirst(layer))]
    .flatMap((layer) => picturesOf(layer, board, window, own.has(normalize(layer.picture))));
}

/**
 * Writes both sides of a board that was plotted, as the files of its layers have it.
 * @param {Board} board
 * @param {PlotWindow} window in which it was plotted
 * @param {{mask: string, finish: string}} colours
 * @returns {{told: string | null, sides: Drawn[]}} what lacks of the board, or why no side is drawn
 */
export function drawSides(board, window, { mask, finish }) {
  const { room } = board, { width, height, pitch } = window, colours = coloursOf(mask, finish);
  if (width * height > MOST_PIXELS) {
    return { told: `the sides are not drawn: more than ${MOST_PIXELS} pixels; a coarser --pitch has fewer`, sides: [] };
  }
  const layers = plottedLayers(board, window);
  if (!layers.length) return { told: "the sides are not drawn: no layer of copper, mask, silkscreen, holes or outline is plotted", sides: [] };
  const { board: within, told } = boardOf(layers);
  const sides = SIDES.map((side) => {
    const { materials, lacks } = sideOf(layers, side, within, pitch), names = { png: `${side}.png`, svg: `${side}.svg` };
    const png = pngOfMaterials(window, nibbleRows(materials, 1), colours);
    room.write(names.png, png);
    room.write(names.svg, svgOf(window, `${titleOf(side)}; pixels of ${pitch} nm`, png.toString("base64")));
    return { side, ...names, lacks, small: pngWithAlpha(reduced(nibbleRows(materials), width, height, colours, SMALL)) };
  });
  return { told, sides };
}

/**
 * What a side is called.
 * @param {string} side
 */
export function titleOf(side) {
  return side === "top" ? "the top as it will be made" : "the bottom as it will be made, seen from below";
}

// What a netlist or a file counts on and is not among the files, or cannot be used: without it the nets are not the board's.

import { kindOf } from "../../web/board/index.js";
import { counted, layerReader, numbersOf } from "../../web/nets/index.js";

/** @typedef {import("./nets_board.js").NetsBoard} NetsBoard */
/** @typedef {import("../../web/nets/index.js").Netlist} Netlist */
/** @typedef {import("../../web/nets/index.js").NetPoint} NetPoint */

// A Gerber file of which nothing says what it shows.
/** @param {import("../../web/board/index.js").Layer} layer */
const isUnknown = ({ layerFunction: { name } }) => name === "other";

// How many points of a netlist lie on each copper that is not there, by its number, those of one layer alone first.
/** @param {Netlist} netlist @param {ReturnType<typeof numbersOf>} copper */
function pointsOn(netlist, copper) {
  /** @type {Map<number, number>} */
  const counts = new Map();
  const layersOf = layerReader(netlist, copper);
  for (const point of netlist.points.filter(({ kind }) => kind !== "tooling")) {
    for (const number of layersOf(point)) if (!copper.numbers.includes(number)) counts.set(number, (counts.get(number) ?? 0) + 1);
  }
  return counts;
}

/** @param {NetsBoard} board @param {Netlist | null} netlist */
function copperLines({ stack, refused }, netlist) {
  /** @type {Map<number, number>} */
  const counts = netlist ? pointsOn(netlist, numbersOf(stack)) : new Map();
  const numbers = [...new Set([...stack.missing, ...counts.keys()])].sort((one, other) => one - other);
  return numbers.map((number) => {
    const why = refused.length ? "is refused, or not among the files" : "is not among the files", points = counts.get(number);
    return `copper ${number} ${why}: ${points ? `${counted(points, "point")} of the netlist ${points === 1 ? "lies" : "lie"} on it`
      : "other files name it"}`;
  });
}

/** @param {NetsBoard} board @param {Netlist | null} netlist @param {NetPoint[]} attributes */
function holeLines({ stack, refused }, netlist, attributes) {
  const isRefused = refused.some(({ layer }) => ["plated", "holes"].includes(layer.layerFunction.name));
  const points = netlist ? netlist.points.filter(({ kind, isPlated }) => isPlated && (kind === "through" || kind === "blind")).length
    : attributes.filter(({ isThrough }) => isThrough).length;
  if ((stack.holes.length || !points) && !isRefused) return [];
  const why = isRefused ? "are refused" : "are not among the files";
  return [`plated holes ${why}: ${counted(points, "point")} ${netlist ? "of the netlist" : "by attributes"} ${points === 1 ? "has" : "have"} one`];
}

/**
 * What is missing, in lines; none where all is there.
 * @param {NetsBoard} board
 * @param {Netlist | null} netlist
 * @param {NetPoint[]} attributes the points by attributes
 * @returns {string[]}
 */
export function missingLines(board, netlist, attributes) {
  return [...copperLines(board, netlist), ...holeLines(board, netlist, attributes), ...board.refused.map(({ layer, why }) => `${layer.file.name}: ${why}`)];
}

/**
 * Gerber and drill files that may be what is missing, since nothing says what they show.
 * @param {NetsBoard} board
 * @param {import("../../web/board/index.js").BoardFile[]} others the files that are not recognised
 * @returns {string[]} a line, or none
 */
export function unknownLines(board, others) {
  const unknown = [...board.layers.filter(isUnknown).map(({ file }) => file), ...others.filter(({ bytes }) => kindOf(bytes) !== null)];
  return unknown.length ? [`what these show is not known: ${unknown.map(({ name }) => name).join(", ")}; --role FILE=top says it`] : [];
}

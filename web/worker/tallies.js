// How many items of each kind an aperture or a tool has, and those that are lit.

import { headOf, itemsOf, linesOf } from "../station/index.js";
import { lineOf } from "./answers.js";

/** @typedef {import("../station/index.js").Station} Station */

// So many are lit at most, each of which is asked for its box and is drawn.
const LIT = 20000;

// Of a layer how many items of each kind there are: by the number of their aperture or tool, and without one.
/** @param {Station} station @param {string} name */
function tallyOf(station, name) {
  /** @type {Record<string, Record<string, number>>} */
  const counts = {};
  for (const item of itemsOf(station, name)) {
    const { kind, number } = headOf(item), kinds = counts[number ?? "none"] ??= {};
    kinds[kind] = (kinds[kind] ?? 0) + 1;
  }
  return counts;
}

// The items of a layer that have a number, so many at most.
/** @param {Station} station @param {{ name: string, number: number }} of @returns {Board.Listed[]} */
function litOf(station, { name, number }) {
  const lit = [];
  let place = 0;
  for (const words of itemsOf(station, name)) {
    if (headOf(words).number === number) lit.push({ name, place, words });
    if (lit.length === LIT) break;
    place++;
  }
  return lit.map((item) => ({ ...item, box: lineOf(station, `box ${name} ${item.place}`) }));
}

/**
 * The tallies of layers with their definitions, and the items of what is lit.
 * @param {Station} station
 * @param {Board.Asked["tally"]} message
 * @returns {Board.Tallies}
 */
export function tally(station, { names, lit }) {
  return {
    layers: Object.fromEntries(names.map((name) => [name, { counts: tallyOf(station, name), entries: linesOf(station, `entries ${name}`) }])),
    lit: lit && litOf(station, lit),
  };
}

// What the station answers to questions, taken apart. What it never says is refused.

import { asked, linesOf } from "../station/index.js";

/** @typedef {import("../station/index.js").Station} Station */

// The first line of an answer; nothing where there is none.
/** @param {Station} station @param {string} question */
export const lineOf = (station, question) => asked(station, question).answer.split("\n", 1)[0] ?? "";

// The box of an answer to `box`, whose sides may lie at half nm; null where nothing is painted.
/** @param {Station} station @param {string} question @returns {Board.Box | null} */
export function boxOf(station, question) {
  const line = lineOf(station, question);
  if (!line) return null;
  const [left, low, right, high] = line.split(" ").map(Number);
  if (left === undefined || low === undefined || right === undefined || high === undefined) throw new Error(`${question}: no box: ${line}`);
  return { left, low, right, high };
}

// How many items each layer has, by their names.
/** @param {Station} station @returns {Map<string, number>} */
export const countsOf = (station) => new Map(linesOf(station, "layers").map((line) => line.split(" ")).map(([name = "", , count]) => [name, Number(count)]));

// The definitions of layers, by their names.
/** @param {Station} station @param {string[]} names @returns {Record<string, string[]>} */
export const entriesOf = (station, names) => Object.fromEntries(names.map((name) => [name, linesOf(station, `entries ${name}`)]));

// An item with its words and its box.
/** @param {Station} station @param {Board.Place} at @returns {Board.Listed} */
export const described = (station, { name, place }) =>
  ({ name, place, words: lineOf(station, `item ${name} ${place}`), box: lineOf(station, `box ${name} ${place}`) });

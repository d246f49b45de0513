// How much of the board is copper, on each layer: in all, and by squares.

import { BAND } from "./runs.js";

/**
 * The share of copper of a layer.
 * @typedef {{all: number, rows: number[][]}} Share parts of 1, in all and by squares, row by row from the top
 */

/**
 * How many of the columns from `start` to before `end` lie in each square, added to sums.
 * @param {Float64Array} sums
 * @param {number} first where the sums of the row begin
 * @param {number} start
 * @param {number} end
 * @param {number} side
 */
function addRun(sums, first, start, end, side) {
  for (let at = start; at < end;) {
    const square = Math.floor(at / side), stop = Math.min(end, Math.ceil((square + 1) * side));
    sums[first + square] += stop - at;
    at = stop;
  }
}

/**
 * The shares of copper within a box of pixels. Squares at its right and lower edges are as large as what is left of it.
 * @param {import("./runs.js").Runs} runs
 * @param {{left: number, top: number, right: number, bottom: number}} box columns and rows, the last ones not included
 * @param {number} side of a square, in pixels
 * @returns {Share}
 */
export function shareOf(runs, { left, top, right, bottom }, side) {
  const across = Math.max(1, Math.ceil((right - left) / side)), down = Math.max(1, Math.ceil((bottom - top) / side));
  const sums = new Float64Array(across * down);
  runs.bands.forEach((band, number) => {
    for (let inner = 0; inner < band.rows; inner++) {
      const row = number * BAND + inner;
      if (row < top || row >= bottom) continue;
      const first = Math.floor((row - top) / side) * across;
      for (let at = /** @type {number} */ (band.offsets[inner]); at < /** @type {number} */ (band.offsets[inner + 1]); at++) {
        const start = Math.max(left, /** @type {number} */ (band.starts[at])), end = Math.min(right, /** @type {number} */ (band.ends[at]));
        if (start < end) addRun(sums, first, start - left, end - left, side);
      }
    }
  });
  const sizeOf = (/** @type {number} */ square, /** @type {number} */ length) => Math.min(length, Math.ceil((square + 1) * side)) - Math.ceil(square * side);
  const rows = Array.from({ length: down }, (_, row) => Array.from({ length: across }, (_column, column) => (
    /** @type {number} */ (sums[row * across + column]) / (sizeOf(column, right - left) * sizeOf(row, bottom - top)))));
  return { all: sums.reduce((sum, one) => sum + one, 0) / ((right - left) * (bottom - top)), rows };
}

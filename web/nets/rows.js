// Rows of runs as lists, and what two of them make together.

import { BAND, Band, Runs } from "./runs.js";

/**
 * A row as [start, end, start, end ..], from left to right, with white between any two.
 * @typedef {number[]} Row
 */

/**
 * What is in the first row and not in the second.
 * @param {Row} one
 * @param {Row} other
 * @returns {Row}
 */
export function without(one, other) {
  /** @type {Row} */
  const row = [];
  for (let at = 0, to = 0; at < one.length; at += 2) {
    let start = /** @type {number} */ (one[at]);
    const end = /** @type {number} */ (one[at + 1]);
    while (to < other.length && /** @type {number} */ (other[to + 1]) <= start) to += 2;
    for (let next = to; next < other.length && /** @type {number} */ (other[next]) < end; next += 2) {
      if (/** @type {number} */ (other[next]) > start) row.push(start, /** @type {number} */ (other[next]));
      start = Math.max(start, /** @type {number} */ (other[next + 1]));
    }
    if (start < end) row.push(start, end);
  }
  return row;
}

/**
 * The rows of bands.
 * @param {import("./runs.js").Band[]} bands
 * @returns {Row[]}
 */
export function rowsOf(bands) {
  return bands.flatMap(({ rows, offsets, starts, ends }) => Array.from({ length: rows }, (_, row) => {
    /** @type {Row} */
    const found = [];
    for (let at = /** @type {number} */ (offsets[row]), end = /** @type {number} */ (offsets[row + 1]); at < end; at++) {
      found.push(/** @type {number} */ (starts[at]), /** @type {number} */ (ends[at]));
    }
    return found;
  }));
}

/**
 * Runs of rows; what lies outside of the width goes.
 * @param {Row[]} rows
 * @param {number} width
 * @returns {Runs}
 */
export function runsOfRows(rows, width) {
  const bands = [];
  for (let first = 0; first < rows.length; first += BAND) {
    const own = rows.slice(first, first + BAND), offsets = new Int32Array(own.length + 1);
    own.forEach((row, at) => {
      offsets[at + 1] = /** @type {number} */ (offsets[at]) + row.length / 2;
    });
    const flat = own.flat(), size = flat.length / 2, starts = new Uint16Array(size), ends = new Uint16Array(size);
    for (let at = 0; at < size; at++) {
      starts[at] = Math.max(0, /** @type {number} */ (flat[2 * at]));
      ends[at] = Math.min(width, /** @type {number} */ (flat[2 * at + 1]));
    }
    bands.push(new Band(own.length, offsets, starts, ends));
  }
  return new Runs(width, rows.length, bands);
}

// A picture as runs: in each row the stretches of black pixels, in bands of 64 rows, each with its own pieces.

import { elementAt } from "./lists.js";

/** How many rows a band has. A tile of the station has as many, so that an edit touches whole bands. */
export const BAND = 64;

/**
 * Rows of a picture. Run `at` covers the columns from `starts[at]` to before `ends[at]`; the runs of row r, counted from the
 * band's first, are those from `offsets[r]` to before `offsets[r + 1]`, from left to right. `labels[at]` is the number of the
 * run's piece in this band alone, from 0 to before `count`; `areas` has the pieces' pixels.
 */
export class Band {
  /**
   * @param {number} rows
   * @param {Int32Array} offsets
   * @param {Uint16Array} starts
   * @param {Uint16Array} ends
   */
  constructor(rows, offsets, starts, ends) {
    this.rows = rows;
    this.offsets = offsets;
    this.starts = starts;
    this.ends = ends;
    const { labels, count } = labelled(this);
    this.labels = labels;
    this.count = count;
    this.areas = areasOf(this);
  }

  /**
   * The run of a row that covers a column; -1 where none does.
   * @param {number} row
   * @param {number} column
   */
  runAt(row, column) {
    const { starts, ends } = this;
    const end = /** @type {number} */ (this.offsets[row + 1]), at = this.firstEndingAfter(row, column);
    return at < end && /** @type {number} */ (starts[at]) <= column && column < /** @type {number} */ (ends[at]) ? at : -1;
  }

  /**
   * The first run of a row that ends after a column, else where the row's runs end.
   * @param {number} row
   * @param {number} column
   */
  firstEndingAfter(row, column) {
    const { ends } = this;
    let low = /** @type {number} */ (this.offsets[row]), high = /** @type {number} */ (this.offsets[row + 1]);
    while (low < high) {
      const middle = (low + high) >> 1;
      if (/** @type {number} */ (ends[middle]) > column) high = middle;
      else low = middle + 1;
    }
    return low;
  }
}

/** The bands of a layer's picture, from the top. */
export class Runs {
  /**
   * @param {number} width in pixels
   * @param {number} height
   * @param {Band[]} bands
   */
  constructor(width, height, bands) {
    this.width = width;
    this.height = height;
    this.bands = bands;
  }

  /** How many runs it has. */
  get size() {
    return this.bands.reduce((sum, band) => sum + band.starts.length, 0);
  }

  /**
   * Whether a pixel is black.
   * @param {number} column
   * @param {number} row
   */
  isBlack(column, row) {
    if (column < 0 || row < 0 || column >= this.width || row >= this.height) return false;
    return elementAt(this.bands, row >> 6).runAt(row & 63, column) >= 0;
  }

  /**
   * The same with other rows in some bands.
   * @param {number} first the number of the first such band
   * @param {Band[]} bands
   */
  withBands(first, bands) {
    const all = this.bands.slice();
    all.splice(first, bands.length, ...bands);
    return new Runs(this.width, this.height, all);
  }
}

// Where the runs of one band are put down at first.
let room = { starts: new Uint16Array(0), ends: new Uint16Array(0) };

/** @param {number} width */
function roomFor(width) {
  const most = BAND * ((width >> 1) + 1);
  if (room.starts.length < most) room = { starts: new Uint16Array(most), ends: new Uint16Array(most) };
  return room;
}

/**
 * The runs of rows of bits, the leftmost pixel of a row in the highest bit of its first byte. Bits behind the last column
 * are white.
 * @param {Uint8Array} bits
 * @param {number} stride bytes a row
 * @param {number} width
 * @param {number} first the first row
 * @param {number} rows
 * @returns {Band}
 */
export function bandOf(bits, stride, width, first, rows) {
  const { starts, ends } = roomFor(width), offsets = new Int32Array(rows + 1);
  let begun = 0, ended = 0;
  for (let row = 0; row < rows; row++) {
    let last = 0;
    for (let at = (first + row) * stride, end = at + stride, column = 0; at < end; at++, column += 8) {
      const byte = /** @type {number} */ (bits[at]);
      if (byte === (last ? 255 : 0)) continue;
      // A bit is set where a pixel differs from the one left of it.
      let changes = byte ^ ((byte >> 1) | (last << 7));
      while (changes) {
        const place = Math.clz32(changes) - 24;
        if (begun === ended) starts[begun++] = column + place;
        else ends[ended++] = column + place;
        changes &= 127 >> place;
      }
      last = byte & 1;
    }
    if (begun !== ended) ends[ended++] = width;
    offsets[row + 1] = begun;
  }
  return new Band(rows, offsets, starts.slice(0, begun), ends.slice(0, begun));
}

/**
 * The runs of a picture of at most 65,535 pixels a row.
 * @param {import("../bytes/index.js").Picture} picture
 * @returns {Runs}
 */
export function runsOf({ width, height, stride, bits }) {
  const bands = [];
  for (let row = 0; row < height; row += BAND) bands.push(bandOf(bits, stride, width, row, Math.min(BAND, height - row)));
  return new Runs(width, height, bands);
}

/**
 * Pieces of a band: each run has the piece of the first run above it that it touches by an edge, and joins those of the
 * others.
 * @param {Pick<Band, "rows" | "offsets" | "starts" | "ends">} band
 */
function labelled({ rows, offsets, starts, ends }) {
  const parents = new Int32Array(starts.length);
  const find = (/** @type {number} */ number) => {
    let at = number;
    while (parents[at] !== at) at = parents[at] = /** @type {number} */ (parents[(/** @type {number} */ (parents[at]))]);
    return at;
  };
  for (let row = 0; row < rows; row++) {
    let above = row ? /** @type {number} */ (offsets[row - 1]) : 0;
    const lastAbove = row ? /** @type {number} */ (offsets[row]) : 0;
    for (let at = /** @type {number} */ (offsets[row]), end = /** @type {number} */ (offsets[row + 1]); at < end; at++) {
      let root = at;
      parents[at] = at;
      while (above < lastAbove && /** @type {number} */ (ends[above]) <= /** @type {number} */ (starts[at])) above++;
      for (let touched = above; touched < lastAbove && /** @type {number} */ (starts[touched]) < /** @type {number} */ (ends[at]); touched++) {
        const other = find(touched);
        if (other < root) root = parents[root] = other;
        else if (other > root) parents[other] = root;
      }
    }
  }
  // A parent has a lower number, so that the pieces are numbered in one pass.
  let count = 0;
  for (let at = 0; at < parents.length; at++) {
    parents[at] = parents[at] === at ? count++ : /** @type {number} */ (parents[(/** @type {number} */ (parents[at]))]);
  }
  return { labels: parents, count };
}

/** @param {Pick<Band, "starts" | "ends" | "labels" | "count">} band */
function areasOf({ starts, ends, labels, count }) {
  const areas = new Int32Array(count);
  for (let at = 0; at < labels.length; at++) {
    areas[/** @type {number} */ (labels[at])] += /** @type {number} */ (ends[at]) - /** @type {number} */ (starts[at]);
  }
  return areas;
}

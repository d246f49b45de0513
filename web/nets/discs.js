// What discs inside the copper of a layer cover, row by row.

import { BAND, Band, Runs } from "./runs.js";

/**
 * The runs of all rows: those of row r are from `offsets[r]` to before `offsets[r + 1]`.
 * @typedef {{offsets: Int32Array, starts: Int32Array, ends: Int32Array}} FlatRows
 */

/**
 * The rows of bands, one after another.
 * @param {Runs} runs
 * @returns {FlatRows}
 */
export function flatRows({ bands, height, size }) {
  const offsets = new Int32Array(height + 1), starts = new Int32Array(size), ends = new Int32Array(size);
  let at = 0, row = 0;
  for (const band of bands) {
    starts.set(band.starts, at);
    ends.set(band.ends, at);
    for (let inner = 1; inner <= band.rows; inner++) offsets[++row] = at + /** @type {number} */ (band.offsets[inner]);
    at += band.starts.length;
  }
  return { offsets, starts, ends };
}

/**
 * Rows as a picture's runs; what lies outside of the width goes.
 * @param {FlatRows} rows
 * @param {number} width
 * @returns {Runs}
 */
export function runsOfFlat({ offsets, starts, ends }, width) {
  const bands = [], height = offsets.length - 1;
  for (let first = 0; first < height; first += BAND) {
    const rows = Math.min(BAND, height - first), from = /** @type {number} */ (offsets[first]), to = /** @type {number} */ (offsets[first + rows]);
    const own = Int32Array.from({ length: rows + 1 }, (_, row) => /** @type {number} */ (offsets[first + row]) - from);
    const clipped = new Uint16Array(to - from), until = new Uint16Array(to - from);
    for (let at = from; at < to; at++) {
      clipped[at - from] = Math.max(0, /** @type {number} */ (starts[at]));
      until[at - from] = Math.min(width, /** @type {number} */ (ends[at]));
    }
    bands.push(new Band(rows, own, clipped, until));
  }
  return new Runs(width, height, bands);
}

/** Rows that are made one after another; the last one is being made. */
export class RowsMade {
  /** @param {number} height @param {number} size about how many runs there will be */
  constructor(height, size) {
    this.offsets = new Int32Array(height + 1);
    this.starts = new Int32Array(size + 16);
    this.ends = new Int32Array(size + 16);
    this.size = 0;
    this.row = 0;
  }

  /** @param {number} start @param {number} end */
  add(start, end) {
    if (this.size === this.starts.length) this.grow();
    this.starts[this.size] = start;
    this.ends[this.size++] = end;
  }

  grow() {
    const { starts, ends } = this;
    this.starts = new Int32Array(2 * starts.length);
    this.ends = new Int32Array(2 * ends.length);
    this.starts.set(starts);
    this.ends.set(ends);
  }

  endRow() {
    this.offsets[++this.row] = this.size;
  }

  /** @returns {FlatRows} */
  made() {
    return { offsets: this.offsets, starts: this.starts.subarray(0, this.size), ends: this.ends.subarray(0, this.size) };
  }
}

// The runs of one row, [start, end, start, end ..], while it is made of others.
class Scratch {
  constructor() {
    this.now = new Int32Array(64);
    this.next = new Int32Array(64);
    this.size = 0;
  }

  /** @param {number} size */
  room(size) {
    if (this.next.length >= size) return;
    this.next = new Int32Array(2 * size);
    const now = new Int32Array(2 * size);
    now.set(this.now);
    this.now = now;
  }

  /** @param {number} size */
  turn(size) {
    [this.now, this.next] = [this.next, this.now];
    this.size = size;
  }

  /**
   * Keeps what is also in a row's runs, each shorter by `by` at both ends.
   * @param {FlatRows} rows
   * @param {number} row
   * @param {number} by
   */
  keep({ offsets, starts, ends }, row, by) {
    const first = /** @type {number} */ (offsets[row]), last = /** @type {number} */ (offsets[row + 1]);
    this.room(this.size + 2 * (last - first) + 2);
    const { now, next, size } = this;
    let made = 0;
    for (let at = 0, other = first; at < size && other < last;) {
      const ownEnd = /** @type {number} */ (now[at + 1]), otherEnd = /** @type {number} */ (ends[other]) - by;
      const start = Math.max(/** @type {number} */ (now[at]), /** @type {number} */ (starts[other]) + by), end = Math.min(ownEnd, otherEnd);
      if (start < end) {
        next[made++] = start;
        next[made++] = end;
      }
      if (ownEnd < otherEnd) at += 2;
      else other++;
    }
    this.turn(made);
  }

  /**
   * Adds a row's runs, each longer by `by` at both ends.
   * @param {FlatRows} rows
   * @param {number} row
   * @param {number} by
   */
  add({ offsets, starts, ends }, row, by) {
    const first = /** @type {number} */ (offsets[row]), last = /** @type {number} */ (offsets[row + 1]);
    if (first === last) return;
    this.room(this.size + 2 * (last - first) + 2);
    const { now, next, size } = this;
    let made = 0;
    for (let at = 0, other = first; at < size || other < last;) {
      const isOther = at >= size || (other < last && /** @type {number} */ (starts[other]) - by < /** @type {number} */ (now[at]));
      const start = isOther ? /** @type {number} */ (starts[other]) - by : /** @type {number} */ (now[at]);
      const end = isOther ? /** @type {number} */ (ends[other++]) + by : /** @type {number} */ (now[at + 1]);
      if (!isOther) at += 2;
      if (made && start <= /** @type {number} */ (next[made - 1])) {
        if (end > /** @type {number} */ (next[made - 1])) next[made - 1] = end;
      } else {
        next[made++] = start;
        next[made++] = end;
      }
    }
    this.turn(made);
  }
}

/**
 * How far a disc reaches to each side, by rows away from its centre.
 * @param {number} radius
 */
function reaches(radius) {
  return Array.from({ length: Math.floor(radius) + 1 }, (_, away) => Math.floor(Math.sqrt(radius * radius - away * away)));
}

/**
 * For each row how many rows before it are the same as the one above them.
 * @param {FlatRows} rows
 */
function sameCounts({ offsets, starts, ends }) {
  const height = offsets.length - 1, counts = new Int32Array(height + 1);
  for (let row = 0; row < height; row++) {
    const first = /** @type {number} */ (offsets[row]), size = /** @type {number} */ (offsets[row + 1]) - first;
    const before = row ? /** @type {number} */ (offsets[row - 1]) : 0;
    let isSame = row > 0 && size === first - before;
    for (let at = 0; at < size && isSame; at++) isSame = starts[first + at] === starts[before + at] && ends[first + at] === ends[before + at];
    counts[row + 1] = /** @type {number} */ (counts[row]) + (isSame ? 1 : 0);
  }
  return counts;
}

/**
 * Makes each row of those around it; where all of these are the same as for the row above, as that one.
 * @param {FlatRows} rows
 * @param {number} away how far the rows around reach
 * @param {(scratch: Scratch, row: number) => void} make
 * @returns {FlatRows}
 */
function madeOfNear(rows, away, make) {
  const height = rows.offsets.length - 1, made = new RowsMade(height, rows.starts.length), scratch = new Scratch(), same = sameCounts(rows);
  for (let row = 0; row < height; row++) {
    const isSame = row > away && row + away < height
      && /** @type {number} */ (same[row + away + 1]) - /** @type {number} */ (same[row - away]) === 2 * away + 1;
    if (!isSame) {
      scratch.size = 0;
      make(scratch, row);
    }
    for (let at = 0; at < scratch.size; at += 2) made.add(/** @type {number} */ (scratch.now[at]), /** @type {number} */ (scratch.now[at + 1]));
    made.endRow();
  }
  return made.made();
}

/**
 * The pixels about which a disc lies in the rows: all pixels whose centres are no farther than its radius are in them.
 * @param {FlatRows} rows
 * @param {number} radius in pixels
 * @returns {FlatRows}
 */
export function shrunk(rows, radius) {
  const reach = reaches(radius), height = rows.offsets.length - 1, last = reach.length - 1;
  return madeOfNear(rows, last, (scratch, row) => {
    if (row < last || row + last >= height) return;
    scratch.add(rows, row, -/** @type {number} */ (reach[0]));
    dropEmpty(scratch);
    for (let away = 1; away <= last && scratch.size; away++) {
      scratch.keep(rows, row - away, /** @type {number} */ (reach[away]));
      if (scratch.size) scratch.keep(rows, row + away, /** @type {number} */ (reach[away]));
    }
  });
}

/**
 * Drops runs that became shorter than nothing.
 * @param {Scratch} scratch
 */
function dropEmpty(scratch) {
  const { now, size } = scratch;
  let kept = 0;
  for (let at = 0; at < size; at += 2) {
    if (/** @type {number} */ (now[at]) >= /** @type {number} */ (now[at + 1])) continue;
    now[kept++] = /** @type {number} */ (now[at]);
    now[kept++] = /** @type {number} */ (now[at + 1]);
  }
  scratch.size = kept;
}

/**
 * All pixels whose centres are no farther from one of the rows' than a radius.
 * @param {FlatRows} rows
 * @param {number} radius in pixels
 * @returns {FlatRows}
 */
export function grown(rows, radius) {
  const reach = reaches(radius), height = rows.offsets.length - 1;
  return madeOfNear(rows, reach.length - 1, (scratch, row) => {
    scratch.add(rows, row, /** @type {number} */ (reach[0]));
    for (let away = 1; away < reach.length; away++) {
      if (row >= away) scratch.add(rows, row - away, /** @type {number} */ (reach[away]));
      if (row + away < height) scratch.add(rows, row + away, /** @type {number} */ (reach[away]));
    }
  });
}

/**
 * What is in the first rows and not in the second.
 * @param {FlatRows} one
 * @param {FlatRows} other
 * @returns {FlatRows}
 */
export function difference(one, other) {
  const height = one.offsets.length - 1, made = new RowsMade(height, one.starts.length);
  for (let row = 0; row < height; row++) {
    let to = /** @type {number} */ (other.offsets[row]);
    const last = /** @type {number} */ (other.offsets[row + 1]);
    for (let at = /** @type {number} */ (one.offsets[row]); at < /** @type {number} */ (one.offsets[row + 1]); at++) {
      let start = /** @type {number} */ (one.starts[at]);
      const end = /** @type {number} */ (one.ends[at]);
      while (to < last && /** @type {number} */ (other.ends[to]) <= start) to++;
      for (let next = to; next < last && /** @type {number} */ (other.starts[next]) < end; next++) {
        if (/** @type {number} */ (other.starts[next]) > start) made.add(start, /** @type {number} */ (other.starts[next]));
        start = Math.max(start, /** @type {number} */ (other.ends[next]));
      }
      if (start < end) made.add(start, end);
    }
    made.endRow();
  }
  return made.made();
}

/**
 * What is in both.
 * @param {FlatRows} one
 * @param {FlatRows} other
 * @returns {FlatRows}
 */
export function common(one, other) {
  const height = one.offsets.length - 1, made = new RowsMade(height, Math.min(one.starts.length, other.starts.length));
  for (let row = 0; row < height; row++) {
    const last = /** @type {number} */ (one.offsets[row + 1]), otherLast = /** @type {number} */ (other.offsets[row + 1]);
    for (let at = /** @type {number} */ (one.offsets[row]), to = /** @type {number} */ (other.offsets[row]); at < last && to < otherLast;) {
      const ownEnd = /** @type {number} */ (one.ends[at]), otherEnd = /** @type {number} */ (other.ends[to]);
      const start = Math.max(/** @type {number} */ (one.starts[at]), /** @type {number} */ (other.starts[to])), end = Math.min(ownEnd, otherEnd);
      if (start < end) made.add(start, end);
      if (ownEnd < otherEnd) at++;
      else to++;
    }
    made.endRow();
  }
  return made.made();
}

/**
 * What is in one of both at least.
 * @param {FlatRows} one
 * @param {FlatRows} other
 * @returns {FlatRows}
 */
export function union(one, other) {
  const height = one.offsets.length - 1, made = new RowsMade(height, one.starts.length + other.starts.length), scratch = new Scratch();
  for (let row = 0; row < height; row++) {
    scratch.size = 0;
    scratch.add(one, row, 0);
    scratch.add(other, row, 0);
    for (let at = 0; at < scratch.size; at += 2) made.add(/** @type {number} */ (scratch.now[at]), /** @type {number} */ (scratch.now[at + 1]));
    made.endRow();
  }
  return made.made();
}

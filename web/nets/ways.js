// The shortest way over copper between points, and its narrowest place.

import { elementAt } from "./lists.js";
import { Table } from "./table.js";
import { Widths, widthOf } from "./widths.js";

/** Widths that differ by less, in pixels, are as narrow as one another. */
const SAME = 1;

/** Numbers by their keys, least key first. */
class Queue {
  constructor() {
    /** @type {number[]} */
    this.keys = [];
    /** @type {number[]} */
    this.values = [];
  }


  /** @param {number} key @param {number} value */
  push(key, value) {
    const { keys, values } = this;
    let at = keys.length;
    keys.push(key);
    values.push(value);
    while (at > 0) {
      const up = (at - 1) >> 1, upper = /** @type {number} */ (keys[up]);
      if (upper <= key) break;
      keys[at] = upper;
      values[at] = /** @type {number} */ (values[up]);
      at = up;
    }
    keys[at] = key;
    values[at] = value;
  }

  /** Takes the number with the least key away; null where none is left. */
  pop() {
    const { keys, values } = this, [leastKey] = keys, [least] = values, key = keys.pop(), value = values.pop(), size = keys.length;
    if (leastKey === undefined || least === undefined || key === undefined || value === undefined) return null;
    let at = 0;
    while (2 * at + 1 < size) {
      let down = 2 * at + 1;
      if (down + 1 < size && /** @type {number} */ (keys[down + 1]) < /** @type {number} */ (keys[down])) down++;
      const lower = /** @type {number} */ (keys[down]);
      if (lower >= key) break;
      keys[at] = lower;
      values[at] = /** @type {number} */ (values[down]);
      at = down;
    }
    if (size) {
      keys[at] = key;
      values[at] = value;
    }
    return { key: leastKey, value: least };
  }
}

/**
 * A stretch of a run: columns from `low` to `high`, both included.
 * @typedef {{low: number, high: number}} Stretch
 *
 * A stretch with its run.
 * @typedef {Stretch & {run: number}} StretchOfRun
 *
 * A pixel, and the copper layer on which it lies.
 * @typedef {{layer: number, column: number, row: number}} Pixel
 *
 * A step of a way: where a run is entered, and where it is left.
 * @typedef {{run: number, enter: number, leave: number}} Step
 *
 * What a search found of each run: what the way there costs, the run before it, and where the way enters. Of the runs that were
 * looked for it has the nearest; null where there is no way, or where none was looked for.
 * @typedef {{costs: Float64Array, before: Int32Array, lows: Int32Array, highs: Int32Array, goal: Goal | null}} Searched
 * @typedef {{run: number, column: number, cost: number}} Goal
 *
 * A run next to another: what the step costs, and where the columns that both have begin and end.
 * @typedef {(run: number, cost: number, low: number, high: number) => void} Beside
 *
 * The middle of the copper at a narrow place, its width in pixels, and the disc that is as wide, if it is one.
 * @typedef {Pixel & {width: number, disc?: import("./widths.js").Disc}} Narrow
 */

/**
 * The runs of one net and of its holes as a graph: runs that touch by an edge, and runs of a hole and of copper that share a
 * pixel. A way costs a pixel for each row that it crosses and each column that it goes along.
 */
export class Ways {
  /** @param {import("./nets.js").Nets} nets @param {number} net */
  constructor(nets, net) {
    this.nets = nets;
    this.table = new Table(nets, (found) => found === net, true);
    /** @type {Widths[]} */
    this.widths = [];
    // Of a layer those that holes join it with in the same row.
    const copperCount = nets.copper.length;
    this.through = this.table.offsets.map((_, layer) => nets.holes.flatMap(({ from, to }, at) => {
      if (layer >= copperCount) return layer - copperCount === at ? span(from, to) : [];
      return from <= layer && layer <= to ? [copperCount + at] : [];
    }));
  }

  /**
   * The run of a pixel, and that column of it.
   * @param {number} layer
   * @param {number} column
   * @param {number} row
   * @returns {StretchOfRun}
   */
  stretchAt(layer, column, row) {
    return { run: this.table.runAt(layer, column, row), low: column, high: column };
  }

  /**
   * Visits the runs next to one.
   * @param {number} run
   * @param {Beside} visit
   */
  beside(run, visit) {
    const { table } = this, layer = /** @type {number} */ (table.layers[run]), row = /** @type {number} */ (table.rows[run]);
    const offsets = elementAt(table.offsets, layer);
    if (row > 0) this.overlapping(run, layer, row - 1, 1, visit);
    if (row + 2 < offsets.length) this.overlapping(run, layer, row + 1, 1, visit);
    for (const other of elementAt(this.through, layer)) this.overlapping(run, other, row, 0, visit);
  }

  /** @param {number} run @param {number} layer @param {number} row @param {number} cost @param {Beside} visit */
  overlapping(run, layer, row, cost, visit) {
    const { starts, ends, offsets } = this.table, end = /** @type {number} */ (elementAt(offsets, layer)[row + 1]);
    const ownStart = /** @type {number} */ (starts[run]), ownEnd = /** @type {number} */ (ends[run]);
    for (let at = this.table.firstEndingAfter(layer, row, ownStart); at < end; at++) {
      const start = /** @type {number} */ (starts[at]);
      if (start >= ownEnd) break;
      visit(at, cost, Math.max(start, ownStart), Math.min(/** @type {number} */ (ends[at]), ownEnd) - 1);
    }
  }

  /**
   * The ways from some stretches to all runs; with `goals` only as far as the nearest of these.
   * @param {Map<number, Stretch>} from by runs
   * @param {Map<number, Stretch> | null} goals
   * @returns {Searched}
   */
  search(from, goals = null) {
    const { size } = this.table, queue = new Queue();
    const costs = new Float64Array(size).fill(Infinity), before = new Int32Array(size).fill(-1);
    const lows = new Int32Array(size), highs = new Int32Array(size), done = new Uint8Array(size);
    for (const [run, { low, high }] of from) {
      costs[run] = 0;
      lows[run] = low;
      highs[run] = high;
      queue.push(0, run);
    }
    /** @type {Goal | null} */
    let goal = null;
    for (let next = queue.pop(); next; next = queue.pop()) {
      const { key, value: run } = next;
      if (goal && key >= goal.cost) break;
      if (done[run]) continue;
      done[run] = 1;
      const wanted = goals?.get(run), ownLow = /** @type {number} */ (lows[run]), ownHigh = /** @type {number} */ (highs[run]);
      if (wanted) {
        const column = Math.min(Math.max(wanted.low, ownLow), wanted.high);
        const cost = key + Math.max(0, column - ownHigh, ownLow - column);
        if (!goal || cost < goal.cost) goal = { run, column, cost };
      }
      this.beside(run, (at, cost, low, high) => {
        if (done[at]) return;
        const first = Math.max(low, Math.min(ownLow, high)), last = Math.min(high, Math.max(ownHigh, low));
        const total = key + cost + Math.max(0, first - ownHigh, ownLow - last);
        if (total >= /** @type {number} */ (costs[at])) return;
        costs[at] = total;
        before[at] = run;
        lows[at] = first;
        highs[at] = last;
        queue.push(total, at);
      });
    }
    return { before, lows, highs, costs, goal };
  }

  /**
   * The way that a search found to a column of a run, from there back: for each run, where it is entered and left.
   * @param {Searched} searched
   * @param {number} run
   * @param {number} column
   * @returns {Step[]}
   */
  traced({ before, lows, highs }, run, column) {
    const way = [];
    let leave = column;
    for (let at = run; at >= 0; at = /** @type {number} */ (before[at])) {
      const enter = Math.min(Math.max(leave, /** @type {number} */ (lows[at])), /** @type {number} */ (highs[at]));
      way.push({ run: at, enter, leave });
      leave = enter;
    }
    return way;
  }

  /**
   * What the shortest ways from the first of some stretches to the others cover: a stretch of each run.
   * @param {StretchOfRun[]} stretches
   * @returns {Map<number, Stretch>} by the runs
   */
  tree(stretches) {
    const [first, ...others] = stretches;
    /** @type {Map<number, Stretch>} */
    const covered = new Map();
    if (!first) return covered;
    cover(covered, first.run, first.low, first.high);
    if (!others.length) return covered;
    const search = this.search(new Map([[first.run, first]]));
    for (const { run, low } of others) {
      for (const step of this.traced(search, run, low)) {
        cover(covered, step.run, Math.min(step.enter, step.leave), Math.max(step.enter, step.leave));
      }
    }
    return covered;
  }

  /**
   * The narrowest place on the shortest way between two coverings, outside of the discs of copper about its ends: these are
   * what the two lie on. Of several places as narrow as one another it is the middle one.
   * @param {Map<number, Stretch>} from
   * @param {Map<number, Stretch>} to
   * @returns {Narrow | null}
   */
  narrowest(from, to) {
    const search = this.search(from, to);
    if (!search.goal) return null;
    const way = this.pixelsOf(this.traced(search, search.goal.run, search.goal.column)), start = way[0], last = way.at(-1);
    if (!start || !last) return this.holeOf(search.goal);
    const ends = [start, last].map((pixel) => ({ layer: pixel.layer, disc: this.widthsOf(pixel.layer).disc(pixel.column, pixel.row) }));
    const isIn = (/** @type {Pixel} */ { layer, column, row }) => ends.some((end) => end.disc && end.layer === layer
      && Math.hypot(end.disc.x - column, end.disc.y - row) < end.disc.radius);
    return this.leastOn(way.filter((pixel) => !isIn(pixel))) ?? this.leastOn(way) ?? { ...start, width: this.widthAt(start) };
  }

  /** @param {number} layer */
  widthsOf(layer) {
    return this.widths[layer] ??= new Widths(elementAt(this.nets.copper, layer));
  }

  /**
   * The pixels of copper on a way, in order.
   * @param {Step[]} way
   */
  pixelsOf(way) {
    /** @type {Pixel[]} */
    const pixels = [];
    for (const { run, enter, leave } of way) {
      const layer = /** @type {number} */ (this.table.layers[run]), row = /** @type {number} */ (this.table.rows[run]), step = leave < enter ? 1 : -1;
      if (layer >= this.nets.copper.length) continue;
      for (let column = leave; column !== enter + step; column += step) pixels.push({ layer, column, row });
    }
    return pixels;
  }

  /** @param {Pixel} pixel */
  widthAt({ layer, column, row }) {
    const disc = this.widthsOf(layer).disc(column, row);
    return disc ? widthOf(disc).width : 0;
  }

  /**
   * The place of the least width at some pixels of a way.
   * @param {Pixel[]} pixels
   * @returns {Narrow | null} null where copper ends at all of them
   */
  leastOn(pixels) {
    /** @type {(Pixel & import("./widths.js").Width)[]} */
    let found = [];
    let least = Infinity;
    for (const { layer, column, row } of pixels) {
      const width = this.widthsOf(layer).at(column, row, least + SAME);
      if (!width) continue;
      found.push({ layer, ...width });
      least = Math.min(least, width.width);
    }
    found = found.filter(({ width }) => width < least + SAME);
    const first = found[0], last = found.at(-1);
    if (!first || !last) return null;
    const x = (first.column + last.column) / 2, y = (first.row + last.row) / 2;
    // Between two corners of white, as where two discs overlap, copper is so narrow for a little way alone; its narrowest place
    // is exact. A longer stretch of one width is told at its middle.
    const isLong = Math.hypot(last.column - first.column, last.row - first.row) > 2 * Math.sqrt(2 * least * SAME) + 2;
    if (!isLong) return nearestOf(found, ({ width }) => width);
    const { layer, column, row } = nearestOf(pixels, (pixel) => Math.hypot(pixel.column - x, pixel.row - y));
    return { layer, ...this.widthsOf(layer).at(column, row) ?? { column, row }, width: least };
  }

  /**
   * Where the way lies in holes alone, the place of one.
   * @param {Goal} goal
   * @returns {Narrow}
   */
  holeOf({ run, column }) {
    const layer = Math.min(/** @type {number} */ (this.table.layers[run]), this.nets.copper.length - 1);
    return { layer, column, row: /** @type {number} */ (this.table.rows[run]), width: 0 };
  }
}

/**
 * @template T
 * @param {T[]} list one at least
 * @param {(one: T) => number} away
 * @returns {T} the one that is the least away
 */
function nearestOf(list, away) {
  return list.reduce((best, place) => (away(place) < away(best) ? place : best));
}

/** @param {number} from @param {number} to */
function span(from, to) {
  return Array.from({ length: to - from + 1 }, (_, at) => from + at);
}

/** @param {Map<number, Stretch>} covered @param {number} run @param {number} low @param {number} high */
function cover(covered, run, low, high) {
  const known = covered.get(run);
  if (known) {
    known.low = Math.min(known.low, low);
    known.high = Math.max(known.high, high);
  } else {
    covered.set(run, { low, high });
  }
}

// Where two parts of a net that should be one come nearest.

import { elementAt } from "./lists.js";
import { Table } from "./table.js";

/**
 * The nearest two pixels of two nets, on one layer.
 * @typedef {{layer: number, from: [number, number], to: [number, number], distance: number, net: number}} Nearest columns and
 *   rows, the distance of their centres in pixels, and the net that `to` belongs to
 */

/** For each run of a part, the nearest run of another in rows farther and farther away, as long as they may be nearer. */
class Search {
  /** @param {Table} table @param {number} part */
  constructor(table, part) {
    this.table = table;
    this.part = part;
    this.square = Infinity;
    /** @type {Nearest | null} */
    this.found = null;
  }

  /** @param {number} at */
  look(at) {
    const { table } = this, row = /** @type {number} */ (table.rows[at]), layer = /** @type {number} */ (table.layers[at]);
    const height = elementAt(table.offsets, layer).length - 1;
    for (let away = 0; away * away < this.square && (row - away >= 0 || row + away < height); away++) {
      if (row - away >= 0) this.lookIn(at, layer, row - away, away);
      if (away > 0 && row + away < height) this.lookIn(at, layer, row + away, away);
    }
  }

  /**
   * From the run's start to both sides, until a run is farther than what is found.
   * @param {number} at
   * @param {number} layer
   * @param {number} row
   * @param {number} away
   */
  lookIn(at, layer, row, away) {
    const { table, part } = this, { starts, ends, owners } = table;
    const offsets = elementAt(table.offsets, layer), first = /** @type {number} */ (offsets[row]), end = /** @type {number} */ (offsets[row + 1]);
    const begin = /** @type {number} */ (starts[at]), stop = /** @type {number} */ (ends[at]);
    const middle = table.firstEndingAfter(layer, row, begin);
    for (let other = middle; other < end; other++) {
      const across = Math.max(0, /** @type {number} */ (starts[other]) - stop + 1);
      if (across * across + away * away >= this.square) break;
      if (owners[other] !== part) return this.keep(at, other, across, away);
    }
    for (let other = middle - 1; other >= first; other--) {
      const across = begin - /** @type {number} */ (ends[other]) + 1;
      if (across * across + away * away >= this.square) break;
      if (owners[other] !== part) return this.keep(at, other, across, away);
    }
    return undefined;
  }

  /** @param {number} at @param {number} other @param {number} across @param {number} away */
  keep(at, other, across, away) {
    const { starts, ends, rows, layers, owners } = this.table;
    this.square = across * across + away * away;
    const start = /** @type {number} */ (starts[at]), end = /** @type {number} */ (ends[at]);
    const otherStart = /** @type {number} */ (starts[other]), otherEnd = /** @type {number} */ (ends[other]);
    let from = 0, to = 0;
    if (across === 0) from = to = (Math.max(start, otherStart) + Math.min(end, otherEnd) - 1) >> 1;
    else if (otherStart >= end) [from, to] = [end - 1, otherStart];
    else [from, to] = [start, otherEnd - 1];
    this.found = { layer: /** @type {number} */ (layers[at]), from: [from, /** @type {number} */ (rows[at])],
      to: [to, /** @type {number} */ (rows[other])], net: /** @type {number} */ (owners[other]), distance: Math.sqrt(this.square) };
  }
}

/**
 * For each of some nets the nearest place of another of them on the same layer; but for the one with the most runs, which the
 * others are looked for from.
 * @param {import("./nets.js").Nets} nets
 * @param {number[]} parts
 * @returns {{nearest: Map<number, Nearest>, largest: number}} without those that share no layer with another
 */
export function nearestParts(nets, parts) {
  const wanted = new Set(parts), table = new Table(nets, (net) => wanted.has(net), false);
  /** @type {Map<number, number[]>} */
  const ownRuns = new Map(parts.map((part) => [part, []]));
  // How many parts lie on each layer.
  const seen = table.offsets.map(() => /** @type {Set<number>} */ (new Set()));
  for (let at = 0; at < table.size; at++) {
    const owner = /** @type {number} */ (table.owners[at]);
    ownRuns.get(owner)?.push(at);
    seen[/** @type {number} */ (table.layers[at])]?.add(owner);
  }
  const runsOf = (/** @type {number} */ part) => ownRuns.get(part) ?? [];
  const largest = parts.reduce((most, part) => (runsOf(part).length > runsOf(most).length ? part : most));
  /** @type {Map<number, Nearest>} */
  const nearest = new Map();
  for (const part of parts) {
    if (part === largest) continue;
    const search = new Search(table, part), own = runsOf(part).filter((at) => elementAt(seen, /** @type {number} */ (table.layers[at])).size > 1);
    // A few of its runs first, so that the others need not look far.
    const step = Math.max(1, Math.floor(Math.sqrt(own.length)));
    for (let at = 0; at < own.length; at += step) search.look(/** @type {number} */ (own[at]));
    for (const at of own) search.look(at);
    if (search.found) nearest.set(part, search.found);
  }
  return { nearest, largest };
}

/**
 * The middle of the largest square that two nets cover both, on two layers: where a hole may have joined them.
 * @param {import("./nets.js").Nets} nets
 * @param {number} one
 * @param {number} other
 * @returns {Overlap | null} null where they lie nowhere over each other
 *
 * @typedef {{layers: [number, number], at: [number, number], side: number}} Overlap
 */
export function overlapOf(nets, one, other) {
  const table = new Table(nets, (net) => net === one || net === other, false);
  /** @type {Overlap | null} */
  let best = null;
  for (let upper = 0; upper < nets.copper.length; upper++) {
    for (let lower = 0; lower < nets.copper.length; lower++) {
      if (upper === lower) continue;
      const found = squareOf(table, upper, one, lower, other, elementAt(nets.copper, 0).width, elementAt(nets.copper, 0).height);
      if (found && (!best || found.side > best.side)) best = { layers: [upper, lower], ...found };
    }
  }
  return best;
}

/**
 * Row by row, the largest square whose lower right corner is each pixel.
 * @param {Table} table
 * @param {number} upper
 * @param {number} one
 * @param {number} lower
 * @param {number} other
 * @param {number} width
 * @param {number} height
 * @returns {{at: [number, number], side: number} | null}
 */
function squareOf(table, upper, one, lower, other, width, height) {
  let sides = new Int32Array(width + 1), above = new Int32Array(width + 1);
  /** @type {{at: [number, number], side: number} | null} */
  let best = null;
  const { starts, ends, owners } = table, uppers = elementAt(table.offsets, upper), lowers = elementAt(table.offsets, lower);
  for (let row = 0; row < height; row++) {
    sides.fill(0);
    const lastUnder = /** @type {number} */ (lowers[row + 1]);
    for (let at = /** @type {number} */ (uppers[row]), last = /** @type {number} */ (uppers[row + 1]); at < last; at++) {
      if (owners[at] !== one) continue;
      const ownStart = /** @type {number} */ (starts[at]), ownEnd = /** @type {number} */ (ends[at]);
      for (let under = table.firstEndingAfter(lower, row, ownStart); under < lastUnder; under++) {
        const start = /** @type {number} */ (starts[under]);
        if (start >= ownEnd) break;
        if (owners[under] !== other) continue;
        const end = Math.min(ownEnd, /** @type {number} */ (ends[under]));
        for (let column = Math.max(ownStart, start); column < end; column++) {
          const aside = /** @type {number} */ (sides[column]), up = /** @type {number} */ (above[column]);
          const side = 1 + Math.min(aside, up, /** @type {number} */ (above[column + 1]));
          sides[column + 1] = side;
          if (!best || side > best.side) best = { side, at: [column - (side >> 1), row - (side >> 1)] };
        }
      }
    }
    [sides, above] = [above, sides];
  }
  return best;
}

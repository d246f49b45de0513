// Which items stand in another order where that matters. Dark items commute with dark ones and clear ones with clear ones;
// a dark and a clear one do where they do not reach into each other. So a layer without clear items has no order.

import { longestRising } from "./matching.js";

/** @typedef {import("../board/index.js").Box} Box */

/** What an item does to what lies below it; both, where it is a block or a repeat with dark and clear objects. */
const DARK = 1, CLEAR = 2, BOTH = 3;

/** So many pairs of items are looked at for whether they reach into each other; past that all are told. */
const MOST_PAIRS = 50_000_000;

/** The polarities of items whose shapes are these. */
export class Polarities {
  /** @param {import("./canonical.js").Shapes} shapes */
  constructor(shapes) {
    this.shapes = shapes;
    /** @type {Map<number, number>} */
    this.known = new Map();
  }

  /** @param {readonly string[]} items @returns {number} */
  ofAll(items) {
    return items.reduce((both, item) => both | this.of(item.trim()), 0);
  }

  /** @param {number} number @returns {number} */
  ofShape(number) {
    let found = this.known.get(number);
    if (found === undefined) {
      const text = this.shapes.texts[number] ?? "";
      this.known.set(number, found = text[0] === "B" ? this.ofAll(text.split("\n").slice(1)) : DARK);
    }
    return found;
  }

  /** @param {string} item @returns {number} */
  of(item) {
    if (item.startsWith("repeat")) return this.ofAll(item.split("\n").slice(1));
    if (item.startsWith("region")) return item.startsWith("region clear") ? CLEAR : DARK;
    const own = item.startsWith("flash") ? this.ofShape(Number(item.slice(6, item.indexOf(" ", 6)))) : DARK;
    if (!item.endsWith(" clear")) return own;
    return own === DARK ? CLEAR : own === CLEAR ? DARK : own;
  }
}

/**
 * The numbers of the runs of one polarity, in order; an item of both is a run of its own.
 * @param {ArrayLike<number>} polarities
 */
function runsOf(polarities) {
  const runs = new Int32Array(polarities.length);
  for (let at = 1, run = 0; at < polarities.length; at++) {
    if (polarities[at] !== polarities[at - 1] || polarities[at] === BOTH) run++;
    runs[at] = run;
  }
  return runs;
}

/** @typedef {{from: number, to: number, item: string}} Pair an item by its places in both lists */

// The pairs of a matching whose order is not that of the others, by their numbers.
/** @param {Pair[]} pairs @param {Int32Array} polarities by pairs */
function unordered(pairs, polarities) {
  const places = Int32Array.from(pairs, ({ to }) => to), byFirst = Int32Array.from(pairs.keys()), bySecond = Int32Array.from(pairs.keys());
  const of = (/** @type {Int32Array} */ list, /** @type {number} */ pair) => /** @type {number} */ (list[pair]);
  bySecond.sort((one, other) => of(places, one) - of(places, other));
  const first = runsOf(polarities), second = new Int32Array(pairs.length), runs = runsOf(bySecond.map((pair) => of(polarities, pair)));
  bySecond.forEach((pair, at) => { second[pair] = of(runs, at); });
  byFirst.sort((one, other) => of(first, one) - of(first, other) || of(second, one) - of(second, other));
  const isIn = longestRising(byFirst.map((pair) => of(second, pair)));
  return [...byFirst].filter((_, at) => !isIn[at]);
}

/** @type {(one: Box, other: Box) => Box | null} */
function common(one, other) {
  const box = { left: Math.max(one.left, other.left), low: Math.max(one.low, other.low), right: Math.min(one.right, other.right),
    high: Math.min(one.high, other.high) };
  return box.left <= box.right && box.low <= box.high ? box : null;
}

/**
 * The items of two lists that stand in another order, where that may be seen.
 * @param {readonly string[]} first
 * @param {Int32Array} places of each in the second list, or -1
 * @param {import("./canonical.js").Shapes} shapes
 * @param {import("./extents.js").Extents} extents
 * @returns {{from: number, to: number, boxes: Box[]}[]} the places of each in both lists, and where it reaches into an
 *   item of the other polarity that has another place beside it now
 */
export function reordered(first, places, shapes, extents) {
  /** @type {Pair[]} */
  const pairs = [];
  first.forEach((item, from) => {
    const to = places[from] ?? -1;
    if (to >= 0) pairs.push({ from, to, item });
  });
  const polarities = new Polarities(shapes), own = Int32Array.from(pairs, ({ item }) => polarities.of(item));
  if (own.every((polarity) => polarity === own[0]) && own[0] !== BOTH) return [];
  const found = unordered(pairs, own), pairAt = (/** @type {number} */ number) => /** @type {Pair} */ (pairs[number]);
  if (found.length * pairs.length > MOST_PAIRS) {
    return found.map(pairAt).map(({ from, to, item }) => ({ from, to, boxes: [extents.box(item)] }));
  }
  /** @type {Map<number, Box>} */
  const known = new Map();
  const boxOf = (/** @type {number} */ pair) => {
    let box = known.get(pair);
    if (!box) known.set(pair, box = extents.box(pairAt(pair).item));
    return box;
  };
  return found.map((pair) => {
    const { from, to } = pairAt(pair);
    /** @type {Box[]} */
    const boxes = [];
    for (let other = 0; other < pairs.length; other++) {
      if (own[other] === own[pair] && own[pair] !== BOTH) continue;
      const { from: at, to: place } = pairAt(other);
      const box = (at < from) === (place < to) ? null : common(boxOf(pair), boxOf(other));
      if (box && other !== pair) boxes.push(box);
    }
    return { from, to, boxes };
  }).filter(({ boxes }) => boxes.length);
}

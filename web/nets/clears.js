// Which places of a layer are cleared after an item: what clear items cover. A place near the rim of one may count as covered.

import { itemOf } from "../board/index.js";
import { elementAt } from "./lists.js";
import { linesOfItem } from "./outline.js";

/**
 * @typedef {import("./flat_items.js").Pair} Pair
 * @typedef {import("./flat_items.js").FlatItem} FlatItem
 */

/** The side of a cell in which clear items are looked up, in nm; one that reaches over more cells is looked at always. */
const CELL = 1_000_000, MOST_CELLS = 400;

/** @typedef {{order: number, left: number, low: number, right: number, high: number, covers: (x: number, y: number) => boolean}} Clear */

/**
 * The distance of a place from a line of chords.
 * @param {Pair[]} line
 * @param {number} x
 * @param {number} y
 */
function distance(line, x, y) {
  let least = Infinity;
  for (let at = 1; at < line.length; at++) {
    const [x0, y0] = elementAt(line, at - 1), [x1, y1] = elementAt(line, at), dx = x1 - x0, dy = y1 - y0, square = dx * dx + dy * dy;
    const part = square ? Math.min(1, Math.max(0, ((x - x0) * dx + (y - y0) * dy) / square)) : 0;
    least = Math.min(least, Math.hypot(x - x0 - part * dx, y - y0 - part * dy));
  }
  return least;
}

/**
 * Whether a place lies inside of contours.
 * @param {Pair[][]} lines
 * @param {number} x
 * @param {number} y
 */
function isInside(lines, x, y) {
  let isIn = false;
  for (const line of lines) {
    for (let at = 1; at < line.length; at++) {
      const [x0, y0] = elementAt(line, at - 1), [x1, y1] = elementAt(line, at);
      if ((y0 <= y) !== (y1 <= y) && x < x0 + (x1 - x0) * (y - y0) / (y1 - y0)) isIn = !isIn;
    }
  }
  return isIn;
}

/**
 * @param {FlatItem} flat
 * @param {number} order
 * @returns {Clear | null}
 */
function clearOf({ item, move }, order) {
  const read = itemOf(item.words);
  const [start] = read?.points ?? [];
  if (!read || !start) return null;
  if (read.kind === "flash") {
    // A long pad may be turned: the circle around it counts.
    const [x, y] = move(start), [width, height] = item.sides, reach = width === height ? width : Math.hypot(width, height);
    return { order, left: x - reach, low: y - reach, right: x + reach, high: y + reach, covers: () => true };
  }
  const lines = linesOfItem(item.words).map((line) => line.map(move)), pen = read.kind === "region" ? 0 : Math.hypot(...item.sides);
  let left = Infinity, low = Infinity, right = -Infinity, high = -Infinity;
  for (const [x, y] of lines.flat()) {
    left = Math.min(left, x - pen);
    low = Math.min(low, y - pen);
    right = Math.max(right, x + pen);
    high = Math.max(high, y + pen);
  }
  return { order, left, low, right, high, covers: read.kind === "region" ? (x, y) => isInside(lines, x, y)
    : (x, y) => lines.some((line) => distance(line, x, y) <= pen) };
}

/** The clear items of a layer, by their order. */
export class Clears {
  /** @param {FlatItem[]} flat the items in the order in which they are painted */
  constructor(flat) {
    /** @type {Map<string, Clear[]>} */
    this.cells = new Map();
    /** @type {Clear[]} */
    this.large = [];
    this.count = 0;
    flat.forEach((one, order) => {
      const clear = one.isDark ? null : clearOf(one, order);
      if (clear) this.add(clear);
    });
  }

  /** @param {Clear} clear */
  add(clear) {
    const cellOf = (/** @type {number} */ side) => Math.floor(side / CELL);
    const left = cellOf(clear.left), low = cellOf(clear.low), right = cellOf(clear.right), high = cellOf(clear.high);
    this.count++;
    if ((right - left + 1) * (high - low + 1) > MOST_CELLS) {
      this.large.push(clear);
      return;
    }
    for (let column = left; column <= right; column++) {
      for (let row = low; row <= high; row++) {
        const key = `${column} ${row}`, known = this.cells.get(key);
        if (known) known.push(clear);
        else this.cells.set(key, [clear]);
      }
    }
  }

  /**
   * Whether a place is cleared after an item.
   * @param {number} order of the item
   * @param {Pair} place
   */
  isCleared(order, [x, y]) {
    if (!this.count) return false;
    const near = this.cells.get(`${Math.floor(x / CELL)} ${Math.floor(y / CELL)}`) ?? [];
    return [near, this.large].some((clears) => clears.some((clear) => clear.order > order && clear.left <= x && x <= clear.right
      && clear.low <= y && y <= clear.high && clear.covers(x, y)));
  }
}

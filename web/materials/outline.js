// An outline by its lines, for any window: also for one that has only a part of it, at any zoom.

import { Grid } from "../nets/index.js";
import { drawLines } from "./line_pixels.js";
import { loopsOf } from "./loops.js";
import { outlineLines } from "./outline_lines.js";
import { white } from "./bits.js";
import { withinOutline, withinPart } from "./within.js";

/** @typedef {import("./bits.js").Bits} Bits */
/** @typedef {import("./loops.js").Pair} Pair */
/** @typedef {import("../board/index.js").PlotWindow} PlotWindow */

/** An outline of more pieces of lines than these is known by its picture alone. */
const MOST_PIECES = 20_000;

/** An outline that has closed lines alone. */
export class Outline {
  /**
   * The outline of these items; null where it has other ones than closed lines, or none that encloses anything.
   * @param {Iterable<string>} items in the words that `insert` takes
   * @returns {Outline | null}
   */
  static of(items) {
    const { closed, isWhole } = outlineLines(items), count = closed.reduce((sum, line) => sum + line.length - 1, 0);
    if (!isWhole || count > MOST_PIECES) return null;
    const loops = loopsOf(closed);
    return loops.length ? new Outline(closed, loops) : null;
  }

  /** @param {Pair[][]} lines @param {import("./loops.js").Loop[]} loops */
  constructor(lines, loops) {
    this.lines = lines;
    this.loops = loops;
    const places = lines.flat(), xs = places.map(([x]) => x), ys = places.map(([, y]) => y);
    const least = (/** @type {number[]} */ list) => list.reduce((one, other) => Math.min(one, other));
    const most = (/** @type {number[]} */ list) => list.reduce((one, other) => Math.max(one, other));
    /** The least box around its lines, in nm. */
    this.box = { left: least(xs), low: least(ys), right: most(xs), high: most(ys) };
  }

  /**
   * The pixels of the board in a window, those that the whole picture at the same pitch has there.
   * @param {PlotWindow} window
   * @returns {Bits | null} null where the window has all of it, and its pixels are too large for it to enclose one
   */
  within(window) {
    const grid = new Grid(window), made = white(window.width, window.height), { left, low, right, high } = this.box;
    const isAll = grid.columnOf(left) >= 0 && grid.columnOf(right) < window.width && grid.rowOf(high) >= 0 && grid.rowOf(low) < window.height;
    if (isAll) {
      drawLines(made, this.lines, grid);
      return withinOutline(made);
    }
    for (const { lines } of this.loops) drawLines(made, lines, grid);
    const ways = this.loops.map(({ way }) => pixelWay(way, grid));
    return withinPart(made, (column, row) => ways.reduce((sum, way) => sum + Number(isIn(way, column, row)), 0) % 2 === 1);
  }
}

// A way by the columns and rows of its places, as its lines are drawn.
/** @param {Pair[]} way @param {Grid} grid */
const pixelWay = (way, grid) => Float64Array.from(way.flatMap(([x, y]) => [grid.columnOf(x), grid.rowOf(y)]));

// Whether the middle of a pixel lies in a way: whether it is crossed an odd number of times to the right of it.
/** @param {Float64Array} way @param {number} column @param {number} row */
function isIn(way, column, row) {
  let isInside = false, [left = 0, above = 0] = way;
  for (let at = 3; at < way.length; at += 2) {
    const right = /** @type {number} */ (way[at - 1]), below = /** @type {number} */ (way[at]);
    if (above > row !== below > row && column < left + (row - above) / (below - above) * (right - left)) isInside = !isInside;
    left = right;
    above = below;
  }
  return isInside;
}

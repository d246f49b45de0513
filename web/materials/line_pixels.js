// The pixels that lines pass, in a picture that may have only a part of them.

import { blacken } from "./bits.js";

/** @typedef {import("./bits.js").Bits} Bits */
/** @typedef {[number, number]} Pair a place in nm */

// The steps of a line of so many in which a coordinate that begins at a pixel and goes so far is in a picture of so many.
/** @param {number} start @param {number} way @param {number} steps @param {number} most @returns {[first: number, last: number]} */
function stepsWithin(start, way, steps, most) {
  if (way === 0) return start >= 0 && start < most ? [0, steps] : [1, 0];
  const ends = [(-1 - start) / way * steps, (most - start) / way * steps];
  return [Math.floor(Math.min(...ends)) - 1, Math.ceil(Math.max(...ends)) + 1];
}

/** @param {Bits} made @param {Pair} from @param {Pair} to @param {import("../nets/index.js").Grid} grid */
function drawLine(made, [fromX, fromY], [toX, toY], grid) {
  const left = grid.columnOf(fromX), top = grid.rowOf(fromY), across = grid.columnOf(toX) - left, down = grid.rowOf(toY) - top;
  const steps = Math.max(Math.abs(across), Math.abs(down), 1);
  const [firstColumn, lastColumn] = stepsWithin(left, across, steps, made.width), [firstRow, lastRow] = stepsWithin(top, down, steps, made.height);
  const last = Math.min(steps, lastColumn, lastRow);
  for (let step = Math.max(0, firstColumn, firstRow); step <= last; step++) {
    const column = left + Math.round(across * step / steps), row = top + Math.round(down * step / steps);
    if (row >= 0 && row < made.height) blacken(made, row, column, column + 1);
  }
}

/**
 * Blackens the pixels that lines pass, one next to another by an edge or a corner, so that no way by edges leads across.
 * @param {Bits} made
 * @param {Pair[][]} lines
 * @param {import("../nets/index.js").Grid} grid of the picture
 */
export function drawLines(made, lines, grid) {
  for (const line of lines) {
    /** @type {Pair | null} */
    let from = null;
    for (const to of line) {
      if (from) drawLine(made, from, to, grid);
      from = to;
    }
  }
}

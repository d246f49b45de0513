// The pixels of an outline's lines.

import { RowsMade } from "./discs.js";
import { elementAt } from "./lists.js";

/**
 * The pixels that lines pass, one next to another by an edge or a corner, so that no way by edges leads across.
 * @param {import("./outline.js").Line[]} lines
 * @param {import("./grid.js").Grid} grid
 * @returns {import("./discs.js").FlatRows}
 */
export function pixelsOfLines(lines, grid) {
  /** @type {Map<number, Set<number>>} */
  const rows = new Map();
  const mark = (/** @type {number} */ column, /** @type {number} */ row) => {
    if (column < 0 || row < 0 || column >= grid.width || row >= grid.height) return;
    const own = rows.get(row);
    if (own) own.add(column);
    else rows.set(row, new Set([column]));
  };
  for (const line of lines) {
    for (let at = 1; at < line.length; at++) {
      const [x0, y0] = elementAt(line, at - 1), [x1, y1] = elementAt(line, at), left = grid.columnOf(x0), top = grid.rowOf(y0);
      const across = grid.columnOf(x1) - left, down = grid.rowOf(y1) - top, steps = Math.max(Math.abs(across), Math.abs(down), 1);
      for (let step = 0; step <= steps; step++) mark(left + Math.round(across * step / steps), top + Math.round(down * step / steps));
    }
  }
  const made = new RowsMade(grid.height, rows.size * 4);
  for (let row = 0; row < grid.height; row++) {
    const columns = [...rows.get(row) ?? []].sort((one, other) => one - other);
    for (let at = 0; at < columns.length;) {
      const start = /** @type {number} */ (columns[at]);
      let end = start;
      while (at < columns.length && columns[at] === end) {
        end++;
        at++;
      }
      made.add(start, end);
    }
    made.endRow();
  }
  return made.made();
}

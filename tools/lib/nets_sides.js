// What lies on the outer copper of a board, for rules: mask, ink and paste, as camplot plots them, and the pads.

import { joined } from "../../web/board/index.js";
import { coversInWindow, runsOf, sidesOf as sidesOfBoard } from "../../web/nets/index.js";

export { coversOf, neededBy, uncheckedOf, uncheckedWords } from "../../web/nets/index.js";

/**
 * The box around mask and paste, as far as it lies in the outline.
 * @param {import("./nets_board.js").NetsBoard} board
 * @returns {import("../../web/board/index.js").Box[]} one, or none
 */
export function boxOfCovers(board) {
  const all = joined(coversInWindow(board.covers).map((layer) => board.askedAfter(layer).box()));
  if (!all) return [];
  if (!board.outlines.closed.length) return [all];
  const { left, low, right, high } = board.sides();
  const box = { left: Math.max(left, all.left), low: Math.max(low, all.low), right: Math.min(right, all.right), high: Math.min(high, all.high) };
  return box.left < box.right && box.low < box.high ? [box] : [];
}

/**
 * The outer layers of copper with what lies on them.
 * @param {import("./nets_board.js").NetsBoard} board
 * @param {import("../../web/board/index.js").PlotWindow} window
 * @param {import("../../web/nets/index.js").NetPoint[]} points
 * @returns {import("../../web/nets/index.js").Side[]}
 */
export function sidesOf(board, window, points) {
  if (!board.needed.length) return [];
  return sidesOfBoard(board, { runsOf: (layer) => runsOf(board.picture(layer, window)), saidOf: (layer) => board.askedAfter(layer).said(),
    holes: board.holes(), points });
}

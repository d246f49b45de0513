// A panel's layer compared with the board's, pixel by pixel: each board of it has to be the picture of the one, shifted.

import { readPbm } from "../../web/bytes/index.js";
import { windowAtPitch, windowLine } from "../../web/board/index.js";
import { Failure } from "./command.js";
import { shiftsOf } from "./panel_layers.js";

/** @typedef {import("./asked_layer.js").AskedLayer} AskedLayer */
/** @typedef {import("./panel_layers.js").Boards} Boards */
/** @typedef {import("../../web/board/index.js").PlotWindow} PlotWindow */

/**
 * The pixels of a layer in a window that is moved.
 * @param {AskedLayer} layer
 * @param {PlotWindow} window
 * @param {{dx: number, dy: number}} shift
 */
function plotted(layer, window, { dx, dy }) {
  const moved = windowLine({ ...window, x: window.x + dx, y: window.y + dy });
  if (!layer.run(moved) || !layer.run("plot it picture")) throw new Failure(`no picture at ${moved} was made to compare`);
  return readPbm(layer.station.file).bits;
}

// The window around a board that reaches to the next ones, so that those of all boards cover the panel.
/** @param {Board.Box} box @param {Boards} boards @param {number} pitch */
function boardWindow(box, { columns, rows, step }, pitch) {
  const reached = { left: box.left, low: box.low, right: columns > 1 ? Math.max(box.right, box.left + step.x) : box.right,
    high: rows > 1 ? Math.max(box.high, box.low + step.y) : box.high };
  return windowAtPitch(reached, pitch);
}

// The boards, by how many columns and rows they stand away, whose items may lie in the window of one.
/** @param {Board.Box} box @param {PlotWindow} window @param {Boards} boards */
function neighbours(box, window, { columns, rows, step }) {
  const right = window.x + window.width * window.pitch, high = window.y + window.height * window.pitch;
  /** @param {number} low @param {number} top @param {number} start @param {number} end @param {number} by @param {number} count */
  const reach = (low, top, start, end, by, count) => Array.from({ length: 2 * count - 1 }, (_, at) => at - count + 1)
    .filter((at) => top + at * by >= start && low + at * by <= end);
  const across = reach(box.left, box.right, window.x, right, step.x, columns);
  const up = reach(box.low, box.high, window.y, high, step.y, rows);
  return across.flatMap((column) => up.map((row) => ({ column, row })));
}

/** @param {number} byte */
function bitsOf(byte) {
  let count = 0;
  for (let rest = byte; rest; rest &= rest - 1) count++;
  return count;
}

/**
 * A byte of a picture, at a place in it: pictures of one window have equally many.
 * @param {Uint8Array} bits
 * @param {number} byte
 */
const byteAt = (bits, byte) => /** @type {number} */ (bits[byte]);

/** A board that reaches into more others than these is no board of a panel. */
const MOST_NEAR = 24;

/**
 * How many pixels of a panel's layer are not those of the boards, shifted.
 * @param {AskedLayer} panel
 * @param {AskedLayer} board
 * @param {AskedLayer | null} rail what else the panel has
 * @param {Boards} boards
 * @param {number} pitch
 * @returns {{pixels: number, differing: number}} how many were compared
 * @throws {Failure} where the boards lie over one another
 */
export function comparePanel(panel, board, rail, boards, pitch) {
  const box = board.box(), { columns, rows, step } = boards;
  if (!box) return { pixels: 0, differing: 0 };
  const window = boardWindow(box, boards, pitch);
  const reached = neighbours(box, window, boards);
  if (reached.length > MOST_NEAR + 1) {
    throw new Failure(`each board would reach into ${reached.length - 1} others: larger steps keep them apart`);
  }
  const near = reached.map(({ column, row }) => ({ column, row,
    bits: plotted(board, window, { dx: -column * step.x, dy: -row * step.y }) }));
  let differing = 0;
  shiftsOf(boards).forEach((shift, at) => {
    const column = Math.floor(at / rows), row = at % rows, found = plotted(panel, window, shift);
    const wanted = rail ? plotted(rail, window, shift) : new Uint8Array(found.length);
    for (const other of near) {
      const c = column + other.column, r = row + other.row;
      if (c < 0 || r < 0 || c >= columns || r >= rows) continue;
      for (let byte = 0; byte < wanted.length; byte++) wanted[byte] |= byteAt(other.bits, byte);
    }
    for (let byte = 0; byte < wanted.length; byte++) {
      const differs = byteAt(wanted, byte) ^ byteAt(found, byte);
      if (differs) differing += bitsOf(differs);
    }
  });
  return { pixels: columns * rows * window.width * window.height, differing };
}

// The window around a board, within the limits of docs/formats.md ("Windows, tiles and PBM files").

import { joined } from "./boxes.js";

// Around the box, in nm.
const MARGIN = 1_000_000;
/** The most pixels of a window's side. */
export const SIDE = 32_768;
/** The greatest pitch, in nm. */
export const PITCH = 100_000_000;
/** Every pixel's centre lies nearer to (0, 0) than this along each axis, in nm. */
export const BOARD = 1_000_000_000;
const INCH = 25_400_000;

/**
 * A window: its lower left corner and its pitch in nm, and its sides in pixels.
 * @typedef {{x: number, y: number, pitch: number, width: number, height: number}} PlotWindow
 */

/**
 * The line of a script that sets a window.
 * @param {PlotWindow} window
 */
export function windowLine({ x, y, pitch, width, height }) {
  return `window ${x} ${y} ${pitch} ${width} ${height}`;
}

/**
 * Whether a window reaches around a box.
 * @param {PlotWindow} window
 * @param {import("./boxes.js").Box} box in nm
 * @returns {boolean}
 */
export function isInWindow({ x, y, pitch, width, height }, box) {
  return x <= box.left && y <= box.low && box.right <= x + width * pitch && box.high <= y + height * pitch;
}

/**
 * The pitch of so many dots an inch, in whole nm.
 * @param {number} dpi
 */
export function pitchOf(dpi) {
  return Math.max(1, Math.round(INCH / dpi));
}

/**
 * Where pixels begin, at a whole number of pitches, and how many it takes, all on the board.
 * @param {number} low
 * @param {number} high
 * @param {number} pitch
 * @returns {[first: number, count: number]}
 */
function span(low, high, pitch) {
  const limit = Math.floor(BOARD / pitch);
  const first = Math.max(Math.floor((low - MARGIN) / pitch), -limit);
  const last = Math.min(Math.ceil((high + MARGIN) / pitch), limit);
  return [first * pitch, Math.max(1, last - first)];
}

/**
 * The window around a box, with a margin. Where this pitch takes too many pixels, it has the finest pitch that does not.
 * @param {import("./boxes.js").Box} box in nm
 * @param {number} finest the pitch that is asked for, in nm
 * @returns {PlotWindow}
 */
export function windowAtPitch(box, finest) {
  const longer = Math.max(box.right - box.left, box.high - box.low) + 2 * MARGIN;
  const pitch = Math.min(PITCH, Math.max(finest, Math.ceil(longer / (SIDE - 2))));
  const [x, width] = span(box.left, box.right, pitch);
  const [y, height] = span(box.low, box.high, pitch);
  return { x, y, pitch, width, height };
}

/**
 * The window around the outline, else around all boxes.
 * @param {import("./boxes.js").Box | null} outline
 * @param {import("./boxes.js").Box[]} boxes
 * @param {number} finest the pitch that is asked for, in nm
 * @returns {PlotWindow | null} null where there is no box
 */
export function windowAround(outline, boxes, finest) {
  const box = outline ?? joined(boxes);
  return box ? windowAtPitch(box, finest) : null;
}

/**
 * A window in a line for people.
 * @param {PlotWindow} window
 * @param {boolean} hasOutline
 * @returns {string}
 */
export function describeWindow(window, hasOutline) {
  const { pitch, width, height } = window;
  const about = hasOutline ? "the outline" : "all layers, as there is no outline";
  const mm = (/** @type {number} */ side) => (side * pitch / 1e6).toFixed(2);
  return `the window around ${about}: ${mm(width)} x ${mm(height)} mm, ${width} x ${height} pixels of ${pitch} nm`;
}

// The measure of a finding as it is drawn: a line from edge to edge, as long as its value is, within a pixel's diagonal.

import { segmentsOf } from "./strokes.js";

/**
 * A place in nm, or in pixels.
 * @typedef {{x: number, y: number}} Spot
 *
 * The two ends of a measure.
 * @typedef {[Spot, Spot]} Measure
 */

/**
 * The way from one place to another as a length of 1; to the right where they are one.
 * @param {Spot} from
 * @param {Spot} to
 * @returns {Spot}
 */
function wayOf(from, to) {
  const length = Math.hypot(to.x - from.x, to.y - from.y);
  return length ? { x: (to.x - from.x) / length, y: (to.y - from.y) / length } : { x: 1, y: 0 };
}

/**
 * @param {Spot} from
 * @param {Spot} way
 * @param {number} far
 * @returns {Spot}
 */
const along = (from, way, far) => ({ x: from.x + way.x * far, y: from.y + way.y * far });

/**
 * Between the pixels of two edges: about the middle of their centres.
 * @param {Spot} from
 * @param {Spot} to
 * @param {number} length
 * @returns {Measure}
 */
export function between(from, to, length) {
  return across({ x: (from.x + to.x) / 2, y: (from.y + to.y) / 2 }, { x: to.x - from.x, y: to.y - from.y }, length);
}

/**
 * About a middle, along a direction.
 * @param {Spot} middle
 * @param {Spot} direction of any length
 * @param {number} length
 * @returns {Measure}
 */
export function across(middle, direction, length) {
  const way = wayOf({ x: 0, y: 0 }, direction);
  return [along(middle, way, -length / 2), along(middle, way, length / 2)];
}

/**
 * Through a disc of copper, from one of the sides that hold it to the other; a pixel's centre has its column and its row as
 * coordinates.
 * @param {import("./widths.js").Disc} disc
 * @param {number} width
 * @returns {Measure}
 */
export function throughDisc({ x, y, across: [right, down] }, width) {
  return across({ x, y }, { x: right, y: down }, width);
}

/**
 * From a place towards another one.
 * @param {Spot} from
 * @param {Spot} to
 * @param {number} length
 * @returns {Measure}
 */
export function towards(from, to, length) {
  return [from, along(from, wayOf(from, to), length)];
}

/**
 * From the rim of a stroke towards a place.
 * @param {[number, number][]} line of the stroke
 * @param {number} radius
 * @param {Spot} to
 * @param {number} length
 * @returns {Measure | null} null where the line has no place
 */
export function fromRim(line, radius, to, length) {
  const near = nearestOn(line, to);
  if (!near) return null;
  const way = wayOf(near, to);
  return [along(near, way, radius), along(near, way, radius + length)];
}

/**
 * Between the rims of two strokes, by the nearest places of their lines; less than 0 where they overlap.
 * @param {Spot} from
 * @param {Spot} to
 * @param {number} radius of the first
 * @param {number} length
 * @returns {Measure}
 */
export function betweenRims(from, to, radius, length) {
  const way = wayOf(from, to);
  return [along(from, way, radius), along(from, way, radius + length)];
}

/**
 * The place of a line that is nearest to a place.
 * @param {[number, number][]} line
 * @param {Spot} place
 * @returns {Spot | null} null where the line has none
 */
function nearestOn(line, { x, y }) {
  /** @type {Spot & {distance: number} | null} */
  let best = null;
  for (const [[x0, y0], [x1, y1]] of segmentsOf(line)) {
    const dx = x1 - x0, dy = y1 - y0, square = dx * dx + dy * dy;
    const part = square ? Math.min(1, Math.max(0, ((x - x0) * dx + (y - y0) * dy) / square)) : 0;
    const near = { x: x0 + part * dx, y: y0 + part * dy }, distance = Math.hypot(x - near.x, y - near.y);
    if (!best || distance < best.distance) best = { ...near, distance };
  }
  return best && { x: best.x, y: best.y };
}

/**
 * Arcs of one quadrant (G74), whose offsets have no sign: at most a quarter of a circle, about the one of four centres
 * from which it is that.
 */

import { Unsaid } from "../report.js";

/** What is told of an arc that got its signs. */
export const SIGNED = "an arc of one quadrant (G74) is written under G75, its offsets with their signs";
const QUARTER = Math.PI / 2;
const ANGLE_SLACK = 0.02;
const CLOSE_STEPS = 3;
const ADVICE = "have arcs written under G75";

/** @typedef {[number, number]} Pair */

/**
 * The angle from start to end about (0, 0), from 0 to a full turn.
 * @param {Pair} start
 * @param {Pair} end
 * @param {boolean} isClockwise
 */
function sweepOf(start, end, isClockwise) {
  const angle = Math.atan2(end[1], end[0]) - Math.atan2(start[1], start[0]);
  const turn = 2 * Math.PI;
  return (((isClockwise ? -angle : angle) % turn) + turn) % turn;
}

/**
 * The offsets with the signs of the arc's centre.
 * @param {[number, number]} start  whole numbers, as all places here
 * @param {[number, number]} end
 * @param {[number, number]} offsets
 * @param {boolean} isClockwise
 * @param {number} step  the least difference of two coordinates
 * @returns {[number, number] | string} why there are none, where no centre fits, or two
 */
export function offsetsThatFit(start, end, offsets, isClockwise, step) {
  if (Math.min(...offsets) < 0) {
    return "whose offset has a sign";
  }
  if (start[0] === end[0] && start[1] === end[1]) {
    return "that ends where it starts";
  }
  const radius = Math.hypot(...offsets);
  /** @type {{off: number, signed: Pair}[]} */
  const fits = [];
  const signsOf = (/** @type {number} */ offset) => (offset === 0 ? [1] : [1, -1]);
  for (const a of signsOf(offsets[0])) {
    for (const b of signsOf(offsets[1])) {
      /** @type {[number, number]} */
      const signed = [a * offsets[0], b * offsets[1]];
      /** @type {(place: Pair) => Pair} */
      const about = ([x, y]) => [x - start[0] - signed[0], y - start[1] - signed[1]];
      const last = about(end);
      if (sweepOf(about(start), last, isClockwise) <= QUARTER + ANGLE_SLACK) {
        fits.push({ off: Math.abs(Math.hypot(...last) - radius), signed });
      }
    }
  }
  fits.sort((one, other) => one.off - other.off);
  const close = CLOSE_STEPS * step;
  const [best, second] = fits;
  if (best === undefined || best.off > close || (second !== undefined && second.off <= 2 * close)) {
    return "whose ends do not determine its centre";
  }
  return best.signed;
}

/**
 * The same, where there have to be some.
  * @param {[number, number]} start
  * @param {[number, number]} end
  * @param {[number, number]} offsets
  * @param {boolean} isClockwise
  * @param {number} step
  * @returns {[number, number]}
 * @throws {Unsaid} where there are none
 */
export function signedOffsets(start, end, offsets, isClockwise, step) {
  const signed = offsetsThatFit(start, end, offsets, isClockwise, step);
  if (typeof signed === "string") {
    throw new Unsaid(`an arc under G74 ${signed}: ${ADVICE}`);
  }
  return signed;
}

/**
 * Parts written as a macro of plain numbers that camplot reads, and the apertures that need no macro.
 *
 * @typedef {import("./parts.js").Part} Part
 * @typedef {import("./placing.js").Placed} Placed
 * @typedef {import("./placing.js").Placing} Placing
 * @typedef {[left: bigint, low: bigint, right: bigint, high: bigint]} Box
 */

import { Unsaid } from "../report.js";
import { decimalText } from "../exact.js";

const MM_DECIMALS = 6;
/** The greatest number of an aperture or a macro, in nm. */
export const MOST_NM = 200_000_000n;
const INCH_DECIMALS = 9;

/**
 * A length of whole nm as camplot reads it back: exact in mm, and in inches with nine decimals, which it rounds to the
 * same nm.
 * @param {bigint} length  nm
 * @param {"mm" | "inch"} unit
 * @returns {string}
 */
export function lengthText(length, unit) {
  if (unit === "mm") {
    return decimalText(length, MM_DECIMALS);
  }
  const size = length < 0n ? -length : length;
  const rounded = (size * 10_000n + 127n) / 254n;
  return decimalText(length < 0n ? -rounded : rounded, INCH_DECIMALS);
}

/**
 * The primitives of all parts in an order that covers the same. The parts of a moire or a thermal that are off take from
 * what lies below them, so such a composite stands where nothing it reaches lies below, or before all parts that are on.
 * @param {Part[]} parts
 * @param {Placing} placing
 * @returns {Placed[]}
 * @throws {Unsaid} where no such order is found
 */
export function placedParts(parts, placing) {
  /** @type {Placed[]} */
  let all = [];
  let hasComposite = false;
  for (const part of parts) {
    if (!("parts" in part)) {
      all.push(...placing.placed(part));
      continue;
    }
    const own = part.parts.flatMap((inner) => placing.placed(inner));
    if (!all.some((other) => meet(boxOf(other), joined(own)))) {
      all.push(...own);
    } else if (all.every((other) => other.on) && !hasComposite) {
      all = [...own, ...all];
    } else {
      throw new Unsaid(`a ${part.kind} over shapes that take away`);
    }
    hasComposite = true;
  }
  return all;
}

/** Whether a number of a primitive is past what a macro may have. */
function isTooLarge(/** @type {Placed} */ { code, on, ...rest }) {
  return Object.values(rest).flat(2).some((length) => length > MOST_NM || length < -MOST_NM);
}

/** @param {Placed} placed */
function sizesOf(placed) {
  if (placed.code === 4) return [];
  return placed.code === 1 ? [placed.diameter] : placed.code === 20 ? [placed.width] : [placed.width, placed.height];
}

/**
 * The least box of a primitive.
 * @param {Placed} placed
 * @returns {Box}
 */
function boxOf(placed) {
  /** @type {(place: import("./placing.js").Place, a: bigint, b: bigint) => Box} */
  const around = ([x, y], a, b) => [x - a, y - b, x + a, y + b];
  switch (placed.code) {
    case 1:
      return around(placed.at, placed.diameter, placed.diameter);
    case 21:
      return around(placed.at, placed.width, placed.height);
    case 20:
      return box([around(placed.from, placed.width, placed.width), around(placed.to, placed.width, placed.width)]);
    default:
      return box(placed.points.map((point) => around(point, 0n, 0n)));
  }
}

/** @param {Box[]} boxes @returns {Box} */
function box(boxes) {
  /** @type {(a: bigint, b: bigint) => bigint} */
  const least = (a, b) => a < b ? a : b, most = (a, b) => a < b ? b : a;
  return boxes.reduce((a, b) => [least(a[0], b[0]), least(a[1], b[1]), most(a[2], b[2]), most(a[3], b[3])]);
}

/** @type {(placed: Placed[]) => Box} */
const joined = (placed) => box(placed.map(boxOf));
/** @type {(a: Box, b: Box) => boolean} */
const meet = (a, b) => a[0] <= b[2] && b[0] <= a[2] && a[1] <= b[3] && b[1] <= a[3];

/**
 * A macro of these primitives, and the aperture that is its flash.
 * @param {number} number  the aperture's
 * @param {string} name  the macro's
 * @param {Placed[]} placed
 * @param {"mm" | "inch"} unit
 * @returns {string[]} two commands
 * @throws {Unsaid} where it is larger than a macro may be
 */
export function macroTexts(number, name, placed, unit) {
  if (placed.some(isTooLarge)) {
    throw new Unsaid("a shape that reaches past 200 mm, as no macro of camplot does");
  }
  if (placed.some((shape) => sizesOf(shape).some((size) => size < 0n))) {
    throw new Unsaid("a size below 0");
  }
  const length = (/** @type {bigint} */ value) => lengthText(value, unit);
  const lines = placed.map((shape) => {
    const on = shape.on ? 1 : 0;
    switch (shape.code) {
      case 1:
        return [1, on, length(shape.diameter), ...shape.at.map(length)];
      case 20:
        return [20, on, length(shape.width), ...[...shape.from, ...shape.to].map(length), 0];
      case 21:
        return [21, on, length(shape.width), length(shape.height), ...shape.at.map(length), 0];
      default:
        return [4, on, shape.points.length, ...[...shape.points, ...shape.points.slice(0, 1)].flat().map(length), 0];
    }
  });
  return [`%AM${name}*\n${lines.map((line) => `${line.join(",")}*`).join("\n")}%`, `%ADD${number}${name}*%`];
}

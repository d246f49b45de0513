/**
 * The shapes that templates and macros are made of, in the file's unit and as exact numbers, before anything is turned or
 * rounded. A part that is not on takes away what the parts before it cover.
 *
 * @typedef {import("../exact.js").Rational} Rational
 * @typedef {[Rational, Rational]} Point
 * @typedef {{kind: "disc", on: boolean, diameter: Rational, at: Point, turn: Rational}} Disc
 * @typedef {{kind: "bar" | "capsule", on: boolean, width: Rational, from: Point, to: Point, turn: Rational}} Bar
 *   a bar has no ends beyond its points, a capsule half circles
 * @typedef {{kind: "rectangle", on: boolean, width: Rational, height: Rational, at: Point, turn: Rational}} Rectangle
 * @typedef {{kind: "outline", on: boolean, points: Point[], turn: Rational}} Outline
 * @typedef {{kind: "polygon", on: boolean, count: number, diameter: Rational, at: Point, start: Rational,
 *   turn: Rational}} Polygon  a regular one, whose first corner lies in the direction of start
 * @typedef {Disc | Bar | Rectangle | Outline | Polygon} Shape
 * @typedef {{kind: "moire" | "thermal", parts: Shape[]}} Composite  shapes that take away from one another alone
 * @typedef {Shape | Composite} Part
 * @typedef {"C" | "R" | "O" | "P"} Template  of the standard: circle, rectangle, obround, polygon
  * @typedef {[Rational, Rational, Rational, Rational, Rational, Rational, Rational, Rational]} Fields  so many of them as a
  *   primitive of this code has
 */

import { Unsaid } from "../report.js";
import { ZERO, add, compare, half, isZero, multiply, negate, rational, subtract } from "../exact.js";

const TWO = rational(2n);
/** @type {Point} */
const NO_PLACE = [ZERO, ZERO];
const MOST_RINGS = 1000n;
const MOST_CORNERS = 5000n;

/** How many fields each primitive has without the rotation, which may be missing, behind its code. */
/** @type {Record<string, number>} */
const FIELDS = { 1: 4, 2: 6, 20: 6, 21: 5, 5: 5, 6: 8, 7: 5 };

/**
 * The part that a primitive of a macro is.
 * @param {import("./macros.js").Primitive} primitive
 * @returns {Part}
 * @throws {Unsaid} where it is none that the standard knows
 */
export function partOf({ code, fields }) {
  if (code === "4") {
    return outlineOf(fields);
  }
  const count = FIELDS[code];
  if (count === undefined) {
    throw new Unsaid(`primitive ${code}, which is none of the standard`);
  }
  if (fields.length !== count && fields.length !== count + 1) {
    throw new Unsaid(`primitive ${code} with ${fields.length} values after its code`);
  }
  // (the count was compared with what the code has)
  const values = /** @type {Fields} */ (fields);
  const turn = fields[count] ?? ZERO;
  if (code === "6") {
    return moire(values, turn);
  }
  if (code === "7") {
    return thermal(values, turn);
  }
  const on = isOn(code, values[0]);
  const [, a, b, c, d, e] = values;
  switch (code) {
    case "1":
      return { kind: "disc", on, diameter: a, at: [b, c], turn };
    case "21":
      return { kind: "rectangle", on, width: a, height: b, at: [c, d], turn };
    case "5":
      return polygon(on, a, d, [b, c], ZERO, turn);
    default:
      return { kind: "bar", on, width: a, from: [b, c], to: [d, e], turn };
  }
}

/** @param {string} code @param {Rational} exposure */
function isOn(code, exposure) {
  if (exposure.d !== 1n || (exposure.n !== 0n && exposure.n !== 1n)) {
    throw new Unsaid(`primitive ${code} with an exposure that is neither 0 nor 1`);
  }
  return exposure.n === 1n;
}

/** @param {Rational[]} fields @returns {Outline} */
function outlineOf(fields) {
  const [exposure, count, ...rest] = fields;
  if (exposure === undefined || count === undefined || count.d !== 1n || count.n < 1n || count.n > MOST_CORNERS) {
    throw new Unsaid("primitive 4 with a number of points that is not from 1 to 5000");
  }
  const needed = 2 * Number(count.n) + 2;
  if (rest.length !== needed && rest.length !== needed + 1) {
    throw new Unsaid(`primitive 4 with ${rest.length} numbers for ${count.n} points`);
  }
  /** @type {Point[]} */
  const points = [];
  for (let place = 0; place < needed - 2; place += 2) {
    points.push(/** @type {Point} */ (rest.slice(place, place + 2)));
  }
  return { kind: "outline", on: isOn("4", exposure), points, turn: rest[needed] ?? ZERO };
}

/**
 * @param {boolean} on
 * @param {Rational} count  how many corners
 * @param {Rational} diameter  of the circle through them
 * @param {Point} at
 * @param {Rational} start  the direction of the first corner, in degrees
 * @param {Rational} turn  about (0, 0)
 * @returns {Polygon}
 */
function polygon(on, count, diameter, at, start, turn) {
  if (count.d !== 1n || count.n < 3n || count.n > MOST_CORNERS) {
    throw new Unsaid("a polygon with a number of corners that is not from 3 to 5000");
  }
  return { kind: "polygon", on, count: Number(count.n), diameter, at, start, turn };
}

/** @type {(on: boolean, diameter: Rational, at: Point, turn: Rational) => Disc} */
const disc = (on, diameter, at, turn) => ({ kind: "disc", on, diameter, at, turn });

/** @type {(on: boolean, width: Rational, height: Rational, at: Point, turn: Rational) => Rectangle} */
const rectangle = (on, width, height, at, turn) => ({ kind: "rectangle", on, width, height, at, turn });

/**
 * Rings, each a disc on and a smaller one off, and the two bars of a cross over them.
 * @param {Fields} fields
 * @param {Rational} turn
 * @returns {Composite}
 */
function moire([x, y, outer, thickness, gap, most, crossWidth, crossLength], turn) {
  /** @type {Shape[]} */
  const parts = [];
  const step = multiply(TWO, add(thickness, gap));
  let diameter = outer;
  for (let ring = 0n; ring * most.d < most.n && ring < MOST_RINGS && compare(diameter, ZERO) > 0; ring += 1n) {
    parts.push(disc(true, diameter, [x, y], turn));
    const inner = subtract(diameter, multiply(TWO, thickness));
    if (compare(inner, ZERO) > 0) {
      parts.push(disc(false, inner, [x, y], turn));
    }
    diameter = subtract(diameter, step);
  }
  if (compare(crossWidth, ZERO) > 0 && compare(crossLength, ZERO) > 0) {
    parts.push(rectangle(true, crossLength, crossWidth, [x, y], turn));
    parts.push(rectangle(true, crossWidth, crossLength, [x, y], turn));
  }
  return { kind: "moire", parts };
}

/**
 * A ring with four gaps: a disc on, a smaller one off, and two bars off, longer than the ring is wide.
 * @param {Fields} fields
 * @param {Rational} turn
 * @returns {Composite}
 */
function thermal([x, y, outer, inner, gap], turn) {
  /** @type {Shape[]} */
  const parts = [disc(true, outer, [x, y], turn)];
  if (compare(inner, ZERO) > 0) {
    parts.push(disc(false, inner, [x, y], turn));
  }
  if (compare(gap, ZERO) > 0) {
    const length = add(outer, gap);
    parts.push(rectangle(false, length, gap, [x, y], turn));
    parts.push(rectangle(false, gap, length, [x, y], turn));
  }
  return { kind: "thermal", parts };
}

/**
 * The obround of these sides about (0, 0).
 * @param {Rational} width
 * @param {Rational} height
 * @returns {Bar}
 */
function obround(width, height) {
  const isWide = compare(width, height) >= 0;
  const reach = half(subtract(isWide ? width : height, isWide ? height : width));
  /** @type {Point} */
  const to = isWide ? [reach, ZERO] : [ZERO, reach];
  /** @type {Point} */
  const from = [negate(to[0]), negate(to[1])];
  return { kind: "capsule", on: true, width: isWide ? height : width, from, to, turn: ZERO };
}

/**
 * The parts of a flash of a template of the standard.
 * @param {Template} template
 * @param {Rational[]} sizes  the parameters of AD
 * @returns {Shape[]}
 * @throws {Unsaid} where parameters are missing or too many
 */
export function partsOfTemplate(template, sizes) {
  const own = { C: 1, R: 2, O: 2, P: 2 }[template];
  const holeAt = template === "P" ? 3 : own;
  if (sizes.length < own || sizes.length > holeAt + 2) {
    throw new Unsaid(`${template} with ${sizes.length} parameters`);
  }
  // A circle has the first of these alone.
  const [size, other, direction = ZERO] = /** @type {[Rational, Rational, Rational?]} */ (sizes);
  /** @type {Record<Template, () => Shape>} */
  const shapes = {
    C: () => disc(true, size, NO_PLACE, ZERO),
    R: () => rectangle(true, size, other, NO_PLACE, ZERO),
    O: () => obround(size, other),
    P: () => polygon(true, other, size, NO_PLACE, direction, ZERO),
  };
  return [shapes[template](), ...holeOf(sizes.slice(holeAt), template === "P" ? direction : ZERO)];
}

/** The hole, turned as a polygon is, of which the standard says that it is the aperture's rotation.
 * @param {Rational[]} sides @param {Rational} turn @returns {Shape[]} */
function holeOf(sides, turn) {
  const [side, other] = sides;
  if (side === undefined || sides.every(isZero)) {
    return [];
  }
  return [other === undefined ? disc(false, side, NO_PLACE, ZERO)
    : rectangle(false, side, other, NO_PLACE, turn)];
}

/**
 * What a straight draw covers with a pen that camplot does not draw with: the hull of the pen at both ends. A pen is a
 * convex outline, or all places at most a radius from a core of one or two points.
 *
 * @typedef {import("./placing.js").Place} Place
 * @typedef {import("./placing.js").Placed} Placed
 * @typedef {import("../exact.js").Rational} Rational
 */

import { Unsaid } from "../report.js";
import { add, multiply, negate } from "../exact.js";

/**
 * The pen that the parts of an aperture are, placed about (0, 0).
 * @param {import("./parts.js").Part[]} parts
 * @param {import("./placing.js").Placing} placing
 * @returns {{points: Place[], diameter: bigint}} an outline where the diameter is 0, else a core
 * @throws {Unsaid} where it is no such pen
 */
export function penOf(parts, placing) {
  const [part] = parts;
  if (part === undefined || parts.length !== 1 || "parts" in part || !part.on) {
    throw new Unsaid(parts.some((shape) => "on" in shape && !shape.on) ? "has a hole" : `is made of ${parts.length} shapes`);
  }
  if (part.kind === "outline" && !isConvex(part.points)) {
    throw new Unsaid("is not convex");
  }
  const [placed] = placing.placed(part);
  switch (placed.code) {
    case 1:
      return { points: [placed.at], diameter: placed.diameter };
    case 4:
      return { points: placed.points, diameter: 0n };
    case 20:
      if (part.kind === "capsule") {
        return { points: [placed.from, placed.to], diameter: placed.width };
      }
  }
  // (any other shape is placed as one of these two)
  const corners = part.kind === "bar" ? placing.cornersOfBar(part)
    : placing.cornersOfRectangle(/** @type {import("./parts.js").Rectangle} */ (part));
  return { points: placing.outline(true, corners, placing.turnOfPart(part.turn)).points, diameter: 0n };
}

/**
 * The primitives that cover all that a pen passes on its way, about the way's start.
 * @param {{points: Place[], diameter: bigint}} pen
 * @param {Place} way  from the start to the end
 * @returns {Placed[]}
 */
export function hullOf({ points, diameter }, [dx, dy]) {
  const corners = hull([...points, ...points.map(([x, y]) => /** @type {Place} */ ([x + dx, y + dy]))]);
  /** @type {Placed[]} */
  const core = corners.length > 2 ? [{ code: 4, on: true, points: corners }] : [];
  if (diameter === 0n) {
    return core;
  }
  /** @type {Placed[]} */
  const sides = corners.map((from, place) => ({ code: 20, on: true, width: diameter, from,
    to: following(corners, place) }));
  /** @type {Placed[]} */
  const ends = corners.map((at) => ({ code: 1, on: true, diameter, at }));
  return [...core, ...(corners.length > 2 ? sides : sides.slice(0, corners.length - 1)), ...ends];
}

/**
 * What stands behind a place of a closed list.
 * @template T
 * @param {T[]} list
 * @param {number} place
 */
const following = (list, place) => /** @type {T} */ (list[(place + 1) % list.length]);

/** @type {(o: Place, a: Place, b: Place) => bigint} */
const cross = (o, a, b) => (a[0] - o[0]) * (b[1] - o[1]) - (a[1] - o[1]) * (b[0] - o[0]);

/**
 * The corners of the convex hull, counterclockwise, none of them on a side.
 * @param {Place[]} points
 */
function hull(points) {
  /** @type {(a: Place, b: Place) => number} */
  const order = (a, b) => (a[0] === b[0] ? (a[1] < b[1] ? -1 : a[1] > b[1] ? 1 : 0) : a[0] < b[0] ? -1 : 1);
  const sorted = [...points].sort(order);
  const places = sorted.filter((point, place) => place === 0 || order(point, following(sorted, place - 2 + sorted.length)) !== 0);
  if (places.length < 3) {
    return places;
  }
  const chain = (/** @type {Place[]} */ list) => {
    /** @type {Place[]} */
    const corners = [];
    for (const point of list) {
      for (let last = corners.at(-1), before = corners.at(-2); last && before && cross(before, last, point) <= 0n;
        last = corners.at(-1), before = corners.at(-2)) {
        corners.pop();
      }
      corners.push(point);
    }
    return corners.slice(0, -1);
  };
  return [...chain(places), ...chain(places.reverse())];
}

/**
 * Whether a closed outline turns one way all along, and once around.
 * @param {import("./parts.js").Point[]} points
 */
function isConvex(points) {
  const steps = points.map((point, place) => {
    const next = following(points, place);
    return /** @type {import("./parts.js").Point} */ ([add(next[0], negate(point[0])), add(next[1], negate(point[1]))]);
  }).filter(([x, y]) => x.n !== 0n || y.n !== 0n);
  const turns = steps.map(([x, y], place) => {
    const [nextX, nextY] = following(steps, place);
    return Number(sign(add(multiply(x, nextY), negate(multiply(y, nextX)))));
  });
  const isOneWay = !(turns.some((turn) => turn > 0) && turns.some((turn) => turn < 0));
  return isOneWay && changesOf(steps.map(([x]) => sign(x))) <= 2 && changesOf(steps.map(([, y]) => sign(y))) <= 2;
}

/** @type {(value: Rational) => -1 | 0 | 1} */
const sign = ({ n }) => (n > 0n ? 1 : n < 0n ? -1 : 0);

/**
 * How often a sign changes around a closed list.
 * @param {number[]} signs
 */
function changesOf(signs) {
  const told = signs.filter((value) => value !== 0);
  return told.filter((value, place) => value !== following(told, place)).length;
}

// Sides of shapes: lines and arcs between points in nm, { from, to } or { from, to, centre, isClockwise }, and how near they are to
// points and to one another. An arc has the radius of its start, as the station's; one that ends where it starts is a circle.

import { BOARD } from "./units.js";

const FULL = 2 * Math.PI;

/** @param {Board.Pair} one @param {Board.Pair} other */
export const far = ([ax, ay], [bx, by]) => Math.hypot(bx - ax, by - ay);

/** @param {Board.Pair} one @param {Board.Pair} other */
const isSame = (one, other) => one[0] === other[0] && one[1] === other[1];

/** @param {number} angle */
const turnOf = (angle) => (angle % FULL + FULL) % FULL;
/** @param {Board.Pair} point @param {Board.Pair} centre */
const angleOf = ([x, y], [cx, cy]) => Math.atan2(y - cy, x - cx);

/** @param {Board.Side} side @returns {side is Board.Arc} */
const isArc = (side) => side.centre !== undefined;

/** @param {Board.Arc} side */
export const radiusOf = ({ from, centre }) => far(from, centre);

// How far an arc turns from its start, in its own direction; and how far the angle of a point is along it.
/** @param {Board.Arc} side @param {Board.Pair} point */
const along = ({ from, centre, isClockwise }, point) => {
  const turned = angleOf(point, centre) - angleOf(from, centre);
  return turnOf(isClockwise ? -turned : turned);
};

/** @param {Board.Arc} side */
export const sweepOf = (side) => isSame(side.from, side.to) ? FULL : along(side, side.to);

/** @param {Board.Arc} side @param {Board.Pair} point */
const isSwept = (side, point) => along(side, point) <= sweepOf(side);

// The point of an arc's circle in the direction of another one.
/** @param {Board.Arc} side @param {Board.Pair} point @returns {Board.Pair} */
function onCircle(side, point) {
  const { centre: [cx, cy] } = side, radius = radiusOf(side), angle = angleOf(point, side.centre);
  return [cx + radius * Math.cos(angle), cy + radius * Math.sin(angle)];
}

// The point in the middle of a side.
/** @param {Board.Side} side @returns {Board.Pair} */
export function middleOf(side) {
  const { from, to, isClockwise } = side;
  if (!isArc(side)) return [(from[0] + to[0]) / 2, (from[1] + to[1]) / 2];
  const { centre } = side, angle = angleOf(from, centre) + (isClockwise ? -1 : 1) * sweepOf(side) / 2, radius = radiusOf(side);
  return [centre[0] + radius * Math.cos(angle), centre[1] + radius * Math.sin(angle)];
}

/** @param {Board.Pair} point @param {Board.Pair} one @param {Board.Pair} other */
const nearer = (point, one, other) => far(point, one) <= far(point, other) ? one : other;

/** @param {Board.Side} side @param {Board.Pair} point @returns {Board.Pair} */
function nearestOnLine({ from: [ax, ay], to: [bx, by] }, [x, y]) {
  const dx = bx - ax, dy = by - ay, square = dx * dx + dy * dy;
  const part = square ? Math.min(1, Math.max(0, ((x - ax) * dx + (y - ay) * dy) / square)) : 0;
  return part === 1 ? [bx, by] : [ax + part * dx, ay + part * dy];
}

/**
 * The point of a side that is nearest to a point.
 * @param {Board.Side} side
 * @param {Board.Pair} point
 */
export function nearestOn(side, point) {
  if (!isArc(side)) return nearestOnLine(side, point);
  const end = nearer(point, side.from, side.to);
  return isSwept(side, point) ? nearer(point, onCircle(side, point), end) : end;
}

/**
 * Twice the area of a triangle, positive where its points go counterclockwise.
 * @param {Board.Pair} one
 * @param {Board.Pair} next
 * @param {Board.Pair} last
 */
export const cross = ([ax, ay], [bx, by], [px, py]) => (bx - ax) * (py - ay) - (by - ay) * (px - ax);

/** @param {Board.Side} one @param {Board.Side} other */
function doLinesCross(one, other) {
  const [a, b] = [cross(one.from, one.to, other.from), cross(one.from, one.to, other.to)];
  const [c, d] = [cross(other.from, other.to, one.from), cross(other.from, other.to, one.to)];
  return a > 0 !== b > 0 && c > 0 !== d > 0;
}

// The points of an arc's circle on a line, between its ends.
/** @param {Board.Arc} arc @param {Board.Side} line @returns {Board.Pair[]} */
function crossingsOfLine(arc, { from: [ax, ay], to: [bx, by] }) {
  const { centre: [cx, cy] } = arc, radius = radiusOf(arc), dx = bx - ax, dy = by - ay, fx = ax - cx, fy = ay - cy;
  const a = dx * dx + dy * dy, b = fx * dx + fy * dy, c = fx * fx + fy * fy - radius * radius, square = b * b - a * c;
  if (a === 0 || square < 0) return [];
  return [-1, 1].map((sign) => (-b + sign * Math.sqrt(square)) / a).filter((part) => part >= 0 && part <= 1)
    .map((part) => [ax + part * dx, ay + part * dy]);
}

// The points that are on both circles.
/** @param {Board.Arc} one @param {Board.Arc} other @returns {Board.Pair[]} */
function crossingsOfArcs(one, other) {
  const [ax, ay] = one.centre, [bx, by] = other.centre, [r, s] = [radiusOf(one), radiusOf(other)], apart = far(one.centre, other.centre);
  if (apart === 0 || apart > r + s || apart < Math.abs(r - s)) return [];
  const part = (apart * apart + r * r - s * s) / (2 * apart), high = Math.sqrt(Math.max(0, r * r - part * part));
  const [ux, uy] = [(bx - ax) / apart, (by - ay) / apart];
  return [-1, 1].map((sign) => [ax + part * ux - sign * high * uy, ay + part * uy + sign * high * ux]);
}

/** @param {Board.Side} one @param {Board.Side} other */
function doCross(one, other) {
  if (isArc(one) && isArc(other)) return crossingsOfArcs(one, other).some((point) => isSwept(one, point) && isSwept(other, point));
  if (isArc(one)) return crossingsOfLine(one, other).some((point) => isSwept(one, point));
  if (isArc(other)) return crossingsOfLine(other, one).some((point) => isSwept(other, point));
  return doLinesCross(one, other);
}

// The points of a side where it may be nearest to another one: its ends, and those of an arc that lie on the way between its centre
// and the other side.
/** @param {Board.Side} side @param {Board.Side} other */
function candidates(side, other) {
  const { from, to } = side;
  if (!isArc(side)) return [from, to];
  const { centre } = side, seen = other.centre ? [other.centre] : [nearestOn(other, centre)];
  /** @type {Board.Pair[]} */
  const points = seen.filter((point) => !isSame(point, centre)).flatMap(([x, y]) => [[x, y], [2 * centre[0] - x, 2 * centre[1] - y]]);
  return [from, to, ...points.filter((point) => isSwept(side, point)).map((point) => onCircle(side, point))];
}

/**
 * The nearest points of two sides.
 * @param {Board.Side} one
 * @param {Board.Side} other
 * @returns {Board.Gap}
 */
export function between(one, other) {
  if (doCross(one, other)) return { distance: 0, from: one.from, to: one.from };
  /** @type {Board.Gap} */
  let best = { distance: Infinity, from: one.from, to: other.from };
  /** @param {Board.Pair} from @param {Board.Pair} to */
  const take = (from, to) => {
    const distance = far(from, to);
    if (distance < best.distance) best = { distance, from, to };
  };
  for (const point of candidates(one, other)) take(point, nearestOn(other, point));
  for (const point of candidates(other, one)) take(nearestOn(one, point), point);
  return best;
}

// How many times a side crosses the level line to the right of a point. Where it only touches the line, that counts 0 or 2 times.
/** @param {Board.Side} side @param {Board.Pair} point */
function crossingsRight(side, [x, y]) {
  /** @param {Board.Pair} point */
  const isAbove = (point) => point[1] > y;
  if (!isArc(side)) {
    const { from, to } = side;
    if (isAbove(from) === isAbove(to)) return 0;
    return from[0] + (y - from[1]) / (to[1] - from[1]) * (to[0] - from[0]) > x ? 1 : 0;
  }
  return arcCrossingsRight(side, [x, y]);
}

// An arc is cut at its top and its bottom, so that each part crosses the line once at most.
/** @param {Board.Arc} side @param {Board.Pair} point */
function arcCrossingsRight(side, [x, y]) {
  const { centre: [cx, cy], from, to } = side, radius = radiusOf(side);
  const ends = /** @type {Board.Pair[]} */ ([[cx, cy + radius], [cx, cy - radius]]);
  const tops = ends.filter((point) => isSwept(side, point) && !isSame(point, from) && !isSame(point, to));
  let count = 0, end = from;
  for (const point of [...tops.sort((one, other) => along(side, one) - along(side, other)), to]) {
    const start = end;
    end = point;
    if (start[1] > y === end[1] > y) continue;
    // On the left or the right half of the circle, as the middle of this part is.
    const middle = middleOf({ ...side, from: start, to: end }), half = Math.sqrt(Math.max(0, radius * radius - (y - cy) ** 2));
    if (cx + (middle[0] >= cx ? half : -half) > x) count++;
  }
  return count;
}

/**
 * Whether a point lies inside of sides that close a contour.
 * @param {Board.Side[]} sides
 * @param {Board.Pair} point
 */
export const isInside = (sides, point) => sides.reduce((sum, side) => sum + crossingsRight(side, point), 0) % 2 === 1;

/**
 * The circle through three points as the centre and the direction from the first to the last; null where its centre is off the board.
 * @param {Board.Pair} from
 * @param {Board.Pair} middle
 * @param {Board.Pair} to
 * @returns {{ centre: Board.Pair, isClockwise: boolean } | null}
 */
export function arcThrough(from, [mx, my], [tx, ty]) {
  const [x, y] = from, ax = mx - x, ay = my - y, bx = tx - x, by = ty - y, area = 2 * (ax * by - ay * bx);
  if (area === 0) return null;
  const a = ax * ax + ay * ay, b = bx * bx + by * by;
  /** @type {Board.Pair} */
  const centre = [x + (by * a - ay * b) / area, y + (ax * b - bx * a) / area];
  return centre.every((length) => Math.abs(length) < BOARD - 1) ? { centre, isClockwise: area < 0 } : null;
}

// What an item paints as a shape that can be measured: sides that a round pen of a radius follows, and whether what they enclose
// belongs to it. And the points of an item that others snap to.

import { between, cross, far, isInside, nearestOn } from "./sides.js";
import { itemOf } from "./items.js";

/** @param {Board.Pair} from @param {Board.Pair} to @returns {Board.Side} */
const line = (from, to) => ({ from, to });
/** @param {Board.Pair} point @returns {Board.Sides} */
const dot = (point) => [line(point, point)];
/** @param {[Board.Pair, ...Board.Pair[]]} points @returns {Board.Sides} */
function chain([first, second = first, ...more]) {
  /** @type {Board.Sides} */
  const sides = [line(first, second)];
  let from = second;
  for (const to of more) {
    sides.push(line(from, to));
    from = to;
  }
  return sides;
}
/** @param {[Board.Pair, ...Board.Pair[]]} points */
const closed = ([first, ...more]) => chain([first, ...more, first]);

/** @param {string | undefined} turn */
const isUpright = (turn) => /90|270/.test(turn ?? "r0");

// The width and the height of an aperture as it is turned.
/** @param {Board.Entry} entry @param {string | undefined} turn @returns {Board.Pair} */
const sizesOf = ({ width, height }, turn) => isUpright(turn) ? [height, width] : [width, height];

/** @param {Board.Pair} at @param {Board.Pair} sizes @returns {[Board.Pair, Board.Pair, Board.Pair, Board.Pair]} */
function cornersOf([x, y], [width, height]) {
  const across = width / 2, up = height / 2;
  return [[x - across, y - up], [x + across, y - up], [x + across, y + up], [x - across, y + up]];
}

/** @param {Board.Flash} item @param {Board.Entry} entry @returns {Board.Shape} */
function flashShape({ points: [at], turn }, entry) {
  const [width, height] = sizesOf(entry, turn), radius = Math.min(width, height) / 2, [x, y] = at;
  if (entry.shape === "rectangle") return { sides: closed(cornersOf(at, [width, height])), radius: 0, isFilled: true };
  if (entry.shape === "circle") return { sides: dot(at), radius: entry.width / 2, isFilled: false };
  const [across, up] = [width / 2 - radius, height / 2 - radius];
  return { sides: [line([x - across, y - up], [x + across, y + up])], radius, isFilled: false };
}

// Whether the last point of a hull is none of its corners where this one comes next.
/** @param {Board.Pair[]} hull @param {Board.Pair} point */
function isInner(hull, point) {
  const before = hull.at(-2), last = hull.at(-1);
  return before !== undefined && last !== undefined && cross(before, last, point) <= 0;
}

// Half of the hull of points that are in order: each corner is a turn to the left.
/** @param {Board.Pair[]} points */
function halfHull(points) {
  /** @type {Board.Pair[]} */
  const hull = [];
  for (const point of points) {
    while (isInner(hull, point)) hull.pop();
    hull.push(point);
  }
  return hull.slice(0, -1);
}

// A rectangle that is drawn from one point to another: the hull of both.
/** @param {Board.Draw} item @param {Board.Entry} entry @returns {Board.Shape} */
function drawnRectangle({ points, turn }, entry) {
  const corners = points.flatMap((point) => cornersOf(point, sizesOf(entry, turn))).sort(([ax, ay], [bx, by]) => ax - bx || ay - by);
  // (each half of the hull of two points and more has one of them)
  const hull = /** @type {[Board.Pair, ...Board.Pair[]]} */ ([...halfHull(corners), ...halfHull(corners.reverse())]);
  return { sides: closed(hull), radius: 0, isFilled: true };
}

/** @param {Board.Region} item @returns {Board.Side[]} */
export function sidesOfRegion({ points: [start], segments }) {
  let from = start;
  return segments.map(({ kind, to, centre }) => {
    const side = centre ? { from, to, centre, isClockwise: kind === "cw" } : line(from, to);
    from = to;
    return side;
  });
}

// The sides of a region, and the line that closes it where it does not end at its start.
/** @param {Board.Region} item @returns {Board.Sides} */
function contourOf(item) {
  const [start] = item.points, [first = line(start, start), ...more] = sidesOfRegion(item), { to } = more.at(-1) ?? first;
  return to[0] === start[0] && to[1] === start[1] ? [first, ...more] : [first, ...more, line(to, start)];
}

/** @param {Board.ArcItem} item @returns {Board.Side} */
const arcSide = ({ points: [from, to, centre], direction }) => ({ from, to, centre, isClockwise: direction === "cw" });

/**
 * The shape of an item by the apertures or tools of its layer; null where it has no simple one.
 * @param {string} words
 * @param {Board.Entry[] | undefined} entries
 * @returns {Board.Shape | null}
 */
export function shapeOf(words, entries) {
  const item = itemOf(words), entry = entries?.find(({ number }) => number === item?.number);
  if (!item) return null;
  if (item.kind === "region") return { sides: contourOf(item), radius: 0, isFilled: true };
  if (!entry || entry.width === 0) return null;
  const radius = entry.width / 2;
  if (item.kind === "hit" || item.kind === "rout") return { sides: chain(item.points), radius, isFilled: false };
  if (!entry.shape || entry.hasHole) return null;
  switch (item.kind) {
    case "flash": return flashShape(item, entry);
    case "draw": return entry.shape === "rectangle" ? drawnRectangle(item, entry)
      : entry.shape === "circle" ? { sides: chain(item.points), radius, isFilled: false } : null;
    // (the pen's disc is at its end too, where that is not on its circle)
    case "arc": return entry.shape !== "circle" ? null
      : { sides: [arcSide(item), ...dot(item.points[1])], radius, isFilled: false };
    default: return null;
  }
}

// Whether a shape holds a point of another one's sides.
/** @param {Board.Shape} shape @param {Board.Shape} other */
const holds = ({ sides, isFilled }, other) => isFilled && isInside(sides, other.sides[0].from);

// The point that is so far from one on the way to another.
/** @param {Board.Pair} from @param {Board.Pair} to @param {number} length @returns {Board.Pair} */
function towards([ax, ay], [bx, by], length) {
  const whole = far([ax, ay], [bx, by]);
  return whole === 0 ? [ax, ay] : [ax + (bx - ax) * length / whole, ay + (by - ay) * length / whole];
}

/**
 * How far two shapes are from one another in nm, 0 where they touch, and the nearest points of both.
 * @param {Board.Shape} one
 * @param {Board.Shape} other
 * @returns {Board.Gap}
 */
export function gapBetween(one, other) {
  let best = between(one.sides[0], other.sides[0]);
  for (const side of one.sides) {
    for (const far of other.sides) {
      const found = between(side, far);
      if (found.distance < best.distance) best = found;
    }
  }
  const distance = best.distance - one.radius - other.radius;
  if (distance <= 0 || holds(one, other) || holds(other, one)) return { distance: 0, from: best.from, to: best.to };
  return { distance, from: towards(best.from, best.to, one.radius), to: towards(best.to, best.from, other.radius) };
}

/**
 * The points of an item that others snap to.
 * @param {string} words
 * @param {Board.Entry[] | undefined} entries
 */
export function pointsOf(words, entries) {
  const item = itemOf(words), entry = entries?.find(({ number }) => number === item?.number);
  /** @param {string} kind @param {Board.Pair[]} points */
  const of = (kind, points) => points.map((at) => ({ kind, at }));
  switch (item?.kind) {
    case "flash": return [...of("centre", item.points),
      ...of("corner", entry?.shape === "rectangle" ? cornersOf(item.points[0], sizesOf(entry, item.turn)) : [])];
    case "hit": return of("centre", item.points);
    case "draw":
    case "rout": return of("end", item.points);
    case "arc": return [...of("end", item.points.slice(0, 2)), ...of("centre", item.points.slice(2))];
    case "region": return [...of("corner", [item.points[0], ...item.segments.map(({ to }) => to)]),
      ...of("centre", item.segments.flatMap(({ centre }) => centre ? [centre] : []))];
    default: return [];
  }
}

/**
 * The point of a shape's edge that is nearest to a point.
 * @param {Board.Shape} shape
 * @param {Board.Pair} point
 */
export function edgeOf({ sides, radius }, point) {
  const nearest = sides.map((side) => nearestOn(side, point)).reduce((one, other) => far(other, point) < far(one, point) ? other : one);
  return radius === 0 ? nearest : far(nearest, point) === 0 ? null : towards(nearest, point, radius);
}

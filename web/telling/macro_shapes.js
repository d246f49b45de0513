// What the primitives of a macro make, where that is a shape that people have a name for. The station keeps the primitives of a
// macro with all lengths in nm (docs/formats.md, "Canonical Gerber files"), and not its name; so a rounded rectangle is one that
// has the primitives of one, whatever its macro was called.

import { distance, joined } from "./paths.js";
import { exact } from "./measures.js";

/** @typedef {import("./measures.js").Pair} Pair */
/** @typedef {import("./measures.js").Length} Length */
/** @typedef {import("./paths.js").Box} Box */

/**
 * What a primitive has: whether it paints, and does not clear; a disc's diameter is its width, a rectangle has a height, and
 * `points` are the middle, both ends of a bar, or the corners.
 * @template {string} K
 * @template {Pair[]} P
 * @typedef {{kind: K, isOn: boolean, width: number, height: number, points: P}} Made
 */
/**
 * A primitive: a disc, a bar without round ends, a rectangle about its middle, or an outline.
 * @typedef {Made<"disc", [middle: Pair]>} Disc
 * @typedef {Made<"bar", [from: Pair, to: Pair]>} Bar
 * @typedef {Made<"rectangle", [middle: Pair]>} Rectangle
 * @typedef {Made<"outline", Pair[]>} Outline
 * @typedef {Disc | Bar | Rectangle | Outline} Primitive
 */

/**
 * What primitives make: `angle` is that of its width, in degrees counterclockwise from the right.
 * @typedef {object} Found
 * @property {"circle" | "rectangle" | "obround" | "round rectangle" | "polygon"} kind
 * @property {Length} width
 * @property {Length} height
 * @property {number} angle
 * @property {number} corners of a polygon
 * @property {Length | null} radius of the corners of a round rectangle
 */

// Corners are rounded to whole nm, each by itself.
const ROUNDED = 2;

/** How many lengths the primitives have at least, by their codes; of an outline its first one tells it. */
const NEEDED = new Map([["1", 3], ["20", 5], ["21", 4]]);

/** @param {string} text */
const nm = (text) => Math.round(Number(text) * 1e6);

/** @param {number[]} list @returns {Pair[]} */
function pairs(list) {
  return Array.from({ length: Math.floor(list.length / 2) }, (_, at) => /** @type {Pair} */ ([list[2 * at], list[2 * at + 1]]));
}

/**
 * A primitive by its line in the canonical text.
 * @param {string} line as `1,1,0.500000,0.000000,0.000000,0*`
 * @returns {Primitive | null} null where it is none
 */
export function primitiveOf(line) {
  const [code = "", exposure, ...fields] = line.trim().replace(/\*?%?$/, "").split(",");
  const lengths = fields.map(nm), [a = NaN, b = NaN, c = NaN, d = NaN, e = NaN] = lengths, count = 2 * Number(fields[0]), isOn = exposure === "1";
  if (!lengths.every(Number.isFinite) || !(lengths.length >= (code === "4" ? 3 + count : NEEDED.get(code) ?? 0))) return null;
  switch (code) {
    case "1": return { kind: "disc", isOn, width: a, height: a, points: [[b, c]] };
    case "20": return { kind: "bar", isOn, width: a, height: 0, points: [[b, c], [d, e]] };
    case "21": return { kind: "rectangle", isOn, width: a, height: b, points: [[c, d]] };
    case "4": return { kind: "outline", isOn, width: 0, height: 0, points: pairs(lengths.slice(1, 1 + count)) };
    default: return null;
  }
}

/** @param {Pair} one @param {Pair} other */
const isNear = ([ax, ay], [bx, by]) => Math.abs(ax - bx) <= ROUNDED && Math.abs(ay - by) <= ROUNDED;

/** @param {Pair} place */
const isMiddle = (place) => isNear(place, [0, 0]);

/** @param {Pair} one @param {Pair} other @returns {Pair} */
const between = ([ax, ay], [bx, by]) => [(ax + bx) / 2, (ay + by) / 2];

/** @param {Found["kind"]} kind @param {Length} width @param {Length} height @param {Partial<Found>} more @returns {Found} */
const found = (kind, width, height, more = {}) => ({ kind, width, height, angle: 0, corners: 0, radius: null, ...more });

/** @param {Length} length @param {number} more @returns {Length} */
const longer = ({ nm: length, isExact }, more) => ({ nm: length + more, isExact });

// The angle of a direction from 0 up to 180 degrees, whole along an axis.
/** @param {Pair} from @param {Pair} to */
function angleOf([ax, ay], [bx, by]) {
  if (Math.abs(by - ay) <= 1) return 0;
  if (Math.abs(bx - ax) <= 1) return 90;
  return (Math.atan2(by - ay, bx - ax) * 180 / Math.PI + 360) % 180;
}

/**
 * A shape whose width is along an angle, so that the angle is below 90 degrees: its width and height change places.
 * @template {{width: Length, height: Length, angle: number}} T
 * @param {T} shape
 * @returns {T}
 */
export function upright(shape) {
  const angle = ((shape.angle % 180) + 180) % 180;
  if (angle < 90) return { ...shape, angle };
  return { ...shape, width: shape.height, height: shape.width, angle: angle - 90 };
}

// Four corners of a rectangle about the middle: its sides and its angle, of no size where corners fall together.
/** @param {Pair[]} corners */
function cornered([a, b, c, d, ...more]) {
  if (!a || !b || !c || !d || more.length || !isMiddle(between(a, c)) || !isMiddle(between(b, d))) return null;
  const width = distance(a, b), height = distance(b, c);
  const dot = (b[0] - a[0]) * (c[0] - b[0]) + (b[1] - a[1]) * (c[1] - b[1]);
  if (Math.abs(dot) > ROUNDED * (width.nm + height.nm)) return null;
  return { width, height, angle: width.nm > ROUNDED ? angleOf(a, b) : angleOf(b, c) - 90 };
}

/** @param {Pair} corner */
const angleAround = ([x, y]) => Math.atan2(y, x) * 180 / Math.PI;

/** @param {Pair[]} corners */
function polygonOf(corners) {
  const [first, second, third] = corners;
  if (!first || !second || !third) return null;
  const { nm: radius, isExact } = distance(first, [0, 0]), step = 360 / corners.length, start = angleAround(first);
  const isLeft = ((angleAround(second) - start + 360) % 360) < 180;
  // (half of a degree of a pad of 0.1 mm is more than the rounding of a corner)
  const isRegular = corners.every((corner) => Math.abs(distance(corner, [0, 0]).nm - radius) <= ROUNDED) && corners.every((corner, at) => {
    const turn = ((angleAround(corner) - start - (isLeft ? 1 : -1) * at * step) % 360 + 540) % 360 - 180;
    return Math.abs(turn) * Math.PI / 180 * radius <= 2 * ROUNDED;
  });
  if (!isRegular) return null;
  const diameter = { nm: 2 * radius, isExact };
  return found("polygon", diameter, diameter, { corners: corners.length, angle: ((start % step) + step) % step });
}

/** @param {Primitive} primitive */
function ofOne({ kind, width, height, points }) {
  if (kind === "disc") return isMiddle(points[0]) ? found("circle", exact(width), exact(width)) : null;
  if (kind === "rectangle") return isMiddle(points[0]) ? found("rectangle", exact(width), exact(height)) : null;
  if (kind !== "outline") return null;
  const sides = cornered(points);
  return sides ? upright(found("rectangle", sides.width, sides.height, { angle: sides.angle })) : polygonOf(points);
}

/** @param {Disc[]} list @param {Pair} place */
const takes = (list, place) => {
  const at = list.findIndex(({ points }) => isNear(points[0], place));
  if (at >= 0) list.splice(at, 1);
  return at >= 0;
};

// Whether there is one disc at each of these places, and no other.
/** @param {Disc[]} discs @param {Pair[]} places */
function areAt(discs, places) {
  const left = [...discs];
  return left.length === places.length && places.every((place) => takes(left, place));
}

// A bar with a disc at each end.
/** @param {Bar} bar @param {Disc[]} discs */
function obroundOf(bar, discs) {
  const [from, to] = bar.points;
  if (discs.some(({ width }) => width !== bar.width) || !areAt(discs, [from, to]) || !isMiddle(between(from, to))) return null;
  return upright(found("obround", longer(distance(from, to), bar.width), exact(bar.width), { angle: angleOf(from, to) }));
}

// KiCad's RoundRect: an outline, a disc at each of its corners, and a bar along each of its sides.
/** @param {Pair[]} corners @param {Disc[]} discs @param {Bar[]} bars */
function roundRectangleOf(corners, discs, bars) {
  const sides = cornered(corners), diameter = discs[0]?.width ?? NaN, left = [...bars];
  if (!sides || [...discs, ...bars].some(({ width }) => width !== diameter) || !areAt(discs, corners)) return null;
  const areSides = corners.every((corner, at) => {
    const next = /** @type {Pair} */ (corners[(at + 1) % corners.length]);
    const own = left.findIndex(({ points: [from, to] }) => (isNear(from, corner) && isNear(to, next)) || (isNear(from, next) && isNear(to, corner)));
    return own >= 0 && left.splice(own, 1).length === 1;
  });
  return areSides ? roundRectangle(longer(sides.width, diameter), longer(sides.height, diameter), diameter, sides.angle) : null;
}

/** @param {Length} width @param {Length} height @param {number} diameter @param {number} angle */
function roundRectangle(width, height, diameter, angle) {
  return upright(found("round rectangle", width, height, { angle, radius: exact(diameter / 2) }));
}

// Altium's: two rectangles across one another, and a disc in each corner.
/** @param {Rectangle} one @param {Rectangle} other @param {Disc[]} discs */
function crossOf(one, other, discs) {
  const [wide, high] = one.width >= other.width ? [one, other] : [other, one], diameter = discs[0]?.width ?? NaN;
  const [x, y] = [high.width / 2, wide.height / 2];
  const isOne = isMiddle(wide.points[0]) && isMiddle(high.points[0]) && discs.every(({ width }) => width === diameter)
    && Math.abs(wide.width - high.width - diameter) <= ROUNDED && Math.abs(high.height - wide.height - diameter) <= ROUNDED
    && areAt(discs, [[x, y], [-x, y], [-x, -y], [x, -y]]);
  return isOne ? roundRectangle(exact(wide.width), exact(high.height), diameter, 0) : null;
}

/**
 * @template {Primitive["kind"]} K
 * @param {Primitive[]} list
 * @param {K} kind
 * @returns {Extract<Primitive, {kind: K}>[]}
 */
function ofKind(list, kind) {
  /** @type {(primitive: Primitive) => primitive is Extract<Primitive, {kind: K}>} */
  const isOfKind = (primitive) => primitive.kind === kind;
  return list.filter(isOfKind);
}

/**
 * What primitives make that all paint.
 * @param {Primitive[]} list
 * @returns {Found | null} null where it has no name here, or its middle is not where it is flashed
 */
export function foundIn(list) {
  const [first] = list;
  if (first && list.length === 1) return ofOne(first);
  const discs = ofKind(list, "disc"), bars = ofKind(list, "bar"), outlines = ofKind(list, "outline"), rectangles = ofKind(list, "rectangle");
  const counts = [outlines, discs, bars, rectangles].map(({ length }) => length).join(" "), [bar] = bars, [outline] = outlines;
  const [one, other] = rectangles;
  if (counts === "0 2 1 0" && bar) return obroundOf(bar, discs);
  if (counts === "1 4 4 0" && outline) return roundRectangleOf(outline.points, discs, bars);
  return counts === "0 4 0 2" && one && other ? crossOf(one, other, discs) : null;
}

/** @param {Primitive} primitive @returns {Pair[]} */
function cornersOf({ kind, width, height, points }) {
  if (kind === "outline") return points;
  if (kind === "bar") {
    const [[ax, ay], [bx, by]] = points, long = Math.hypot(bx - ax, by - ay) || 1;
    const x = (ay - by) / long * width / 2, y = (bx - ax) / long * width / 2;
    return [[ax + x, ay + y], [ax - x, ay - y], [bx + x, by + y], [bx - x, by - y]];
  }
  const [[x, y]] = points;
  return [[x - width / 2, y - height / 2], [x + width / 2, y + height / 2]];
}

/**
 * The box of the primitives that paint.
 * @param {Primitive[]} list
 * @returns {Box | null}
 */
export function boxOfPrimitives(list) {
  /** @type {Box | null} */
  let box = null;
  for (const primitive of list.filter(({ isOn }) => isOn)) {
    for (const [x, y] of cornersOf(primitive)) {
      box = joined(box, { left: x, low: y, right: x, high: y, isExact: Number.isInteger(2 * x) && Number.isInteger(2 * y) });
    }
  }
  return box;
}

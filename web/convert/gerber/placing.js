/**
 * Parts as the primitives that camplot reads, mirrored, turned and scaled, in whole nanometres: each corner and each
 * centre at the nearest place, ties away from zero, so at most 0.71 nm from where it should be.
 *
 * @typedef {import("../exact.js").Rational} Rational
 * @typedef {import("./parts.js").Shape} Shape
 * @typedef {import("./parts.js").Point} Point
  * @typedef {"N" | "X" | "Y" | "XY"} Mirror
 * @typedef {[bigint, bigint]} Place  whole nm
 * @typedef {[bigint, bigint]} Real  a place in nm, as reals in fixed point
 * @typedef {{code: 1, on: boolean, diameter: bigint, at: Place}
 *   | {code: 20, on: boolean, width: bigint, from: Place, to: Place}
 *   | {code: 21, on: boolean, width: bigint, height: bigint, at: Place}
 *   | {code: 4, on: boolean, points: Place[]}} Placed
 */

import { BITS, ZERO, add, approximately, fixed, half, modulo, multiply, nearest, negate, rational, roundReal, squareRoot,
  times } from "../exact.js";
import { turnOf } from "../turns.js";

const QUARTER = 90n;
const HALF_CIRCLE = rational(180n);
const FULL_CIRCLE = rational(360n);
const NM = { mm: rational(1_000_000n), inch: rational(25_400_000n) };

/** How far rounded places lie from where they should be, in nm. */
export class Rounding {
  constructor() {
    this.corners = 0;
    this.centres = 0;
    this.worst = 0;
  }

  /** @returns {string | undefined} what was rounded, and by how much at most */
  told() {
    const words = [{ count: this.corners, word: "corner" }, { count: this.centres, word: "centre" }]
      .filter(({ count }) => count > 0)
      .map(({ count, word }) => `${count} ${word}${count > 1 ? "s" : ""}`);
    return words.length === 0 ? undefined : `${words.join(" and ")}, by at most ${this.worst.toFixed(2)} nm`;
  }
}

/** A mirror, then a turn about (0, 0) and a scale, of parts in a unit. */
export class Placing {
  /**
   * @param {"mm" | "inch"} unit
   * @param {{turn?: Rational, scale?: Rational, mirror?: Mirror}} settings  the mirror is N, X (x is negated), Y or XY
   * @param {Rounding} [rounding]
   */
  constructor(unit, { turn = ZERO, scale = rational(1n), mirror = /** @type {Mirror} */ ("N") } = {}, rounding = new Rounding()) {
    this.factor = multiply(NM[unit], scale);
    this.turn = turn;
    this.mirror = mirror;
    this.rounding = rounding;
  }

  /**
   * The angle by which a shape of this turn lies turned in the end.
   * @param {Rational} turn
   */
  turnOfPart(turn) {
    const isReversed = this.mirror === "X" || this.mirror === "Y";
    return modulo(add(this.turn, isReversed ? negate(turn) : turn), 360n);
  }

  /** @param {Rational} length */
  length(length) {
    return nearest(multiply(length, this.factor));
  }

  /**
   * A place of the shape, mirrored.
   * @param {Point} point
   * @returns {Real}
   */
  real([x, y]) {
    /** @type {(value: Rational, isNegated: boolean) => bigint} */
    const real = (value, isNegated) => fixed(multiply(isNegated ? negate(value) : value, this.factor));
    return [real(x, this.mirror.includes("X")), real(y, this.mirror.includes("Y"))];
  }

  /** @param {Real} place @param {Rational} turn @returns {Real} */
  turned([x, y], turn) {
    const { cos, sin } = turnOf(turn);
    return [(x * cos - y * sin) >> BITS, (x * sin + y * cos) >> BITS];
  }

  /**
   * The nearest place; what it is the place of is counted where it had to be rounded.
   * @param {Real} place
   * @param {"corners" | "centres"} counted
   */
  rounded([x, y], counted) {
    /** @type {Place} */
    const place = [roundReal(x), roundReal(y)];
    const off = Math.hypot(approximately(x - (place[0] << BITS)), approximately(y - (place[1] << BITS)));
    if (off > 1e-9) {
      this.rounding[counted] += 1;
      this.rounding.worst = Math.max(this.rounding.worst, off);
    }
    return place;
  }

  /** @param {Point} at @param {Rational} turn */
  centre(at, turn) {
    return this.rounded(this.turned(this.real(at), turn), "centres");
  }

  /** @param {Shape} part @returns {[Placed, ...Placed[]]} */
  placed(part) {
    const turn = this.turnOfPart(part.turn);
    const isQuarter = turn.d === 1n && turn.n % QUARTER === 0n;
    switch (part.kind) {
      case "disc":
        return [{ code: 1, on: part.on, diameter: this.length(part.diameter), at: this.centre(part.at, turn) }];
      case "capsule":
        return this.capsule(part, turn);
      case "bar":
        return isQuarter ? [this.bar(part, turn)] : [this.outline(part.on, this.cornersOfBar(part), turn)];
      case "rectangle":
        return [isQuarter ? this.rectangle(part, turn) : this.outline(part.on, this.cornersOfRectangle(part), turn)];
      case "outline":
        return [this.outline(part.on, part.points.map((point) => this.real(point)), turn)];
      default:
        return [{ code: 4, on: part.on, points: this.cornersOfPolygon(part, turn) }];
    }
  }

  /** @param {boolean} on @param {Real[]} corners @param {Rational} turn @returns {Placed & {code: 4}} */
  outline(on, corners, turn) {
    return { code: 4, on, points: corners.map((corner) => this.rounded(this.turned(corner, turn), "corners")) };
  }

  /** @param {import("./parts.js").Bar} part @param {Rational} turn @returns {Placed & {code: 20}} */
  bar({ on, width, from, to }, turn) {
    return { code: 20, on, width: this.length(width), from: this.centre(from, turn), to: this.centre(to, turn) };
  }

  /**
   * Discs at both ends, and between their centres as they were rounded a bar that touches them.
   * @param {import("./parts.js").Bar} part
   * @param {Rational} turn
   * @returns {[Placed, ...Placed[]]}
   */
  capsule(part, turn) {
    const bar = this.bar(part, turn);
    /** @type {Placed[]} */
    const ends = [bar.from, bar.to].map((at) => ({ code: 1, on: part.on, diameter: bar.width, at }));
    return [bar, ...ends];
  }

  /** @param {import("./parts.js").Rectangle} part @param {Rational} turn @returns {Placed & {code: 21}} */
  rectangle({ on, width, height, at }, turn) {
    const [wide, high] = [this.length(width), this.length(height)];
    const isUpright = turn.n % (2n * QUARTER) === 0n;
    return { code: 21, on, width: isUpright ? wide : high, height: isUpright ? high : wide, at: this.centre(at, turn) };
  }

  /** @param {import("./parts.js").Rectangle} part @returns {Real[]} */
  cornersOfRectangle({ width, height, at }) {
    const [x, y] = this.real(at);
    const side = (/** @type {Rational} */ length) => fixed(half(multiply(length, this.factor)));
    const a = side(width), b = side(height);
    return [[x - a, y - b], [x + a, y - b], [x + a, y + b], [x - a, y + b]];
  }

  /**
   * Half the width to both sides of each end; of a bar of no length, which covers nothing, its ends.
   * @param {import("./parts.js").Bar} part
   * @returns {Real[]}
   */
  cornersOfBar({ width, from, to }) {
    const [start, end] = [this.real(from), this.real(to)];
    const dx = add(to[0], negate(from[0])), dy = add(to[1], negate(from[1]));
    const length = squareRoot(add(multiply(dx, dx), multiply(dy, dy)));
    if (length === 0n) {
      return [start, end, end, start];
    }
    const reach = half(multiply(width, this.factor));
    const across = (/** @type {Rational} */ side) => (fixed(multiply(side, reach)) << BITS) / length;
    const aside = this.mirror.includes("X") ? across(dy) : -across(dy);
    const up = this.mirror.includes("Y") ? -across(dx) : across(dx);
    /** @type {(end: Real, sign: bigint) => Real} */
    const beside = ([x, y], sign) => [x + sign * aside, y + sign * up];
    return [beside(start, 1n), beside(end, 1n), beside(end, -1n), beside(start, -1n)];
  }

  /** @param {import("./parts.js").Polygon} part @param {Rational} turn */
  cornersOfPolygon({ count, diameter, at, start }, turn) {
    const [x, y] = this.turned(this.real(at), turn);
    const radius = half(multiply(diameter, this.factor));
    const mirrored = { N: start, X: add(HALF_CIRCLE, negate(start)), Y: negate(start), XY: add(HALF_CIRCLE, start) };
    const first = add(turn, mirrored[this.mirror]);
    const step = rational(FULL_CIRCLE.n, BigInt(count));
    /** @type {Place[]} */
    const corners = [];
    for (let place = 0n; place < count; place += 1n) {
      const { cos, sin } = turnOf(add(first, multiply(step, rational(place))));
      corners.push(this.rounded([x + times(radius, cos), y + times(radius, sin)], "corners"));
    }
    return corners;
  }
}

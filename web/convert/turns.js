/**
 * Sines and cosines of angles in degrees, in fixed point of 256 bits: no platform's Math.sin is asked, so that every
 * computer writes the same digits. By a theorem of Niven a sine of rational degrees is rational at 0, a half and 1 alone;
 * those are exact.
 *
 * @typedef {import("./exact.js").Rational} Rational
 * @typedef {{cos: bigint, sin: bigint}} Turn  both as reals in fixed point
 */

import { BITS, modulo, rational, compare, subtract } from "./exact.js";

/** Bits that are computed beyond those that are given. */
const GUARD = 32n;
const ONE = 1n << (BITS + GUARD);

/**
 * 1/k - 1/3k^3 + 1/5k^5 - .., the angle whose tangent is 1/k.
 * @param {bigint} k
 * @returns {bigint}
 */
function inverseTangent(k) {
  const square = k * k;
  let power = ONE / k;
  let sum = power;
  for (let divisor = 3n, sign = -1n; power !== 0n; divisor += 2n, sign = -sign) {
    power /= square;
    sum += (sign * power) / divisor;
  }
  return sum;
}

/** Machin: pi / 4 = 4 atan(1/5) - atan(1/239). */
const PI = 4n * (4n * inverseTangent(5n) - inverseTangent(239n));

/**
 * The sine and cosine of an angle in degrees from 0 to 45, by their series.
 * @param {Rational} angle
 * @returns {Turn}
 */
function series({ n, d }) {
  const angle = (PI * n) / (180n * d);
  let term = ONE;
  let cos = 0n;
  let sin = 0n;
  for (let k = 0n; term !== 0n; k += 1n) {
    const sign = k % 4n < 2n ? 1n : -1n;
    if (k % 2n === 0n) {
      cos += sign * term;
    } else {
      sin += sign * term;
    }
    term = ((term * angle) >> (BITS + GUARD)) / (k + 1n);
  }
  return { cos: cos >> GUARD, sin: sin >> GUARD };
}

const HALF_TURN = rational(90n);

/**
 * The turn by an angle from 0 to below 90 degrees.
 * @param {Rational} angle
 * @returns {Turn}
 */
function firstQuarter(angle) {
  if (angle.n === 0n) {
    return { cos: 1n << BITS, sin: 0n };
  }
  if (compare(angle, rational(45n)) > 0) {
    const { cos, sin } = firstQuarter(subtract(HALF_TURN, angle));
    return { cos: sin, sin: cos };
  }
  const turn = series(angle);
  return angle.n === 30n && angle.d === 1n ? { cos: turn.cos, sin: 1n << (BITS - 1n) } : turn;
}

/** @type {Map<string, Turn>} */
const known = new Map();

/**
 * @param {Rational} degrees
 * @returns {Turn} the cosine and the sine of the angle, each at most 2^-250 from it
 */
export function turnOf(degrees) {
  const angle = modulo(degrees, 360n);
  const key = `${angle.n}/${angle.d}`;
  let turn = known.get(key);
  if (turn === undefined) {
    const { cos, sin } = firstQuarter(modulo(angle, 90n));
    const quarter = angle.n / (90n * angle.d);
    turn = quarter === 0n ? { cos, sin } : quarter === 1n ? { cos: -sin, sin: cos } : quarter === 2n ? { cos: -cos, sin: -sin }
      : { cos: sin, sin: -cos };
    if (known.size > 10_000) {
      known.clear();
    }
    known.set(key, turn);
  }
  return turn;
}

// What --nearest rounds: each corner as it is written, beside where it should be by other arithmetic than the tool's,
// rationals of whole numbers with sines by their series. The greatest distances are a table of the cases.

import assert from "node:assert/strict";
import { readFileSync } from "node:fs";
import { join } from "node:path";
import { convertGerber } from "../../web/convert/gerber/convert.js";
import { latin1, latin1Bytes } from "../../web/bytes/text.js";
import { suite, test } from "./harness.js";
import { CASES } from "./support.js";

/** A number is a whole one of these parts. */
const ONE = 10n ** 60n;
/** 2^-1/2, in nm: a corner at the nearest nm of x and of y is at most this far away. */
const MOST = 0.70711;
const NM_OF = { mm: 1_000_000n, inch: 25_400_000n };

/** @typedef {[bigint, bigint]} Pair */

/** @param {string} text @returns {bigint} */
const number = (text) => {
  const [, sign, whole, fraction = ""] = /^(-?)(\d*)\.?(\d*)$/.exec(text);
  const size = BigInt(whole || "0") * ONE + BigInt(fraction.padEnd(60, "0").slice(0, 60));
  return sign === "-" ? -size : size;
};
/** @type {(a: bigint, b: bigint) => bigint} */
const times = (a, b) => (a * b) / ONE;

/** pi = sum of 2^(n+1) n!^2 / (2n+1)!, by Euler. */
const PI = (() => {
  let term = 2n * ONE, sum = 0n;
  for (let n = 1n; term !== 0n; n++) {
    sum += term;
    term = (term * n) / (2n * n + 1n);
  }
  return sum;
})();

/**
 * The cosine and the sine of degrees, by the series of the whole angle.
 * @param {bigint} degrees
 * @returns {Pair}
 */
function turn(degrees) {
  const angle = times(degrees, PI) / 180n;
  let [cos, sin, term] = [0n, 0n, ONE];
  for (let k = 0n; term !== 0n; k++) {
    const sign = k % 4n < 2n ? 1n : -1n;
    if (k % 2n === 0n) cos += sign * term;
    else sin += sign * term;
    term = times(term, angle) / (k + 1n);
  }
  return [cos, sin];
}

/** @type {(place: Pair, turn: Pair) => Pair} */
const turned = ([x, y], [cos, sin]) => [times(x, cos) - times(y, sin), times(x, sin) + times(y, cos)];

/**
 * The square root, digit by digit.
 * @param {bigint} value
 */
function root(value) {
  let found = 0n;
  for (let bit = 1n << 400n; bit > 0n; bit >>= 1n) {
    if ((found + bit) * (found + bit) <= value * ONE) found += bit;
  }
  return found;
}

/** The corners that are wanted, in the unit of the file, of each kind of shape. */
const SHAPES = {
  rectangle({ sides: [width, height], at: [x, y] = ["0", "0"], turn: angle }) {
    const [a, b] = [number(width) / 2n, number(height) / 2n];
    const about = turn(number(angle));
    return /** @type {Pair[]} */ ([[-a, -b], [a, -b], [a, b], [-a, b]]).map(([dx, dy]) =>
      turned([number(x) + dx, number(y) + dy], about));
  },
  outline({ points, turn: angle }) {
    const about = turn(number(angle));
    return points.map(([x, y]) => turned([number(x), number(y)], about));
  },
  bar({ width, from, to, turn: angle }) {
    const [start, end] = [from, to].map(([x, y]) => /** @type {Pair} */ ([number(x), number(y)]));
    const [dx, dy] = [end[0] - start[0], end[1] - start[1]];
    const length = root(times(dx, dx) + times(dy, dy));
    const across = [-dy, dx].map((side) => (times(side, number(width)) * ONE) / (2n * length));
    const about = turn(number(angle));
    return /** @type {[Pair, bigint][]} */ ([[start, -1n], [end, -1n], [end, 1n], [start, 1n]]).map(([[x, y], sign]) =>
      turned([x + sign * across[0], y + sign * across[1]], about));
  },
  polygon({ count, diameter, at: [x, y] = ["0", "0"], turn: angle }) {
    const about = turn(number(angle));
    return Array.from({ length: count }, (_, place) => {
      const [cos, sin] = turn((360n * ONE * BigInt(place)) / BigInt(count));
      const radius = number(diameter) / 2n;
      return turned([number(x) + times(radius, cos), number(y) + times(radius, sin)], about);
    });
  },
};

/** The corners of each outline that was written. */
function cornersWritten(text) {
  return [...text.matchAll(/^4,[01],(\d+),([-\d.,]*),0\*%?$/gm)].map(([, count, numbers]) => {
    const values = numbers.split(",");
    return Array.from({ length: Number(count) }, (_, place) => [number(values[2 * place]), number(values[2 * place + 1])]);
  });
}

/**
 * A length as camplot reads it: of nine decimals, at the nearest nm.
 * @param {bigint} value
 * @param {"mm" | "inch"} unit
 */
function asRead(value, unit) {
  const size = (value < 0n ? -value : value) / (ONE / 10n ** 9n);
  const nm = unit === "mm" ? (size + 500n) / 1000n : (size * 254n + 5000n) / 10_000n;
  return value < 0n ? -nm : nm;
}

/** The greatest distance, in nm, of a corner from the nearest one that is wanted, and of those from the nearest corner. */
function greatest(written, wanted, unit) {
  /** @type {(place: bigint, value: bigint) => number} */
  const off = (place, value) => Number(asRead(place, unit) * ONE - value * NM_OF[unit]) / Number(ONE);
  const distances = written.map(([x, y]) => wanted.map(([a, b]) => Math.hypot(off(x, a), off(y, b))));
  const back = wanted.map((_, place) => Math.min(...distances.map((row) => row[place])));
  return Math.max(...back, ...distances.map((row) => Math.min(...row)));
}

suite("corners", () => {
  for (const { name, text, unit, shape, farthest } of JSON.parse(readFileSync(join(CASES, "nearest_corners.json"), "utf8"))) {
    test(name, () => {
      const head = `%FSLAX46Y46*%\n%MO${unit === "mm" ? "MM" : "IN"}*%\n`;
      const { bytes, refusals } = convertGerber(latin1Bytes(`${head}${text}\nM02*\n`), { nearest: true });
      assert.deepEqual(refusals, []);
      const outlines = cornersWritten(latin1(bytes));
      assert.equal(outlines.length, 1);
      const wanted = SHAPES[shape.kind](shape);
      assert.equal(outlines[0].length, wanted.length);
      const far = greatest(outlines[0], wanted, unit);
      assert.ok(far <= MOST, `${far} nm`);
      assert.equal(far.toFixed(2), farthest);
    });
  }
});

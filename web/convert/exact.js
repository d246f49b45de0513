/**
 * Exact numbers: rationals of two BigInts, and reals in fixed point for what a turn makes of them.
 *
 * @typedef {{n: bigint, d: bigint}} Rational  n / d, where d is greater than 0
 */

/** How many bits a real of fixed point has behind its point. */
export const BITS = 256n;
const ONE = 1n << BITS;
/** Nearer to a half than this, a real is taken as that half: the errors of fixed point are far below it. */
const TIE = 1n << (BITS - 200n);

/** @type {Rational} */
export const ZERO = { n: 0n, d: 1n };

/**
 * @param {bigint | number} n
 * @param {bigint | number} [d]  not 0
 * @returns {Rational} n / d in lowest terms
 */
export function rational(n, d = 1n) {
  let top = BigInt(n);
  let bottom = BigInt(d);
  if (bottom < 0n) {
    top = -top;
    bottom = -bottom;
  }
  let a = top < 0n ? -top : top;
  let b = bottom;
  while (b !== 0n) {
    [a, b] = [b, a % b];
  }
  return a > 1n ? { n: top / a, d: bottom / a } : { n: top, d: bottom };
}

/** @type {(a: Rational, b: Rational) => Rational} */
export const add = (a, b) => rational(a.n * b.d + b.n * a.d, a.d * b.d);
/** @type {(a: Rational, b: Rational) => Rational} */
export const subtract = (a, b) => rational(a.n * b.d - b.n * a.d, a.d * b.d);
/** @type {(a: Rational, b: Rational) => Rational} */
export const multiply = (a, b) => rational(a.n * b.n, a.d * b.d);
/**
 * a / b, where b is not 0.
 * @type {(a: Rational, b: Rational) => Rational}
 */
export const divide = (a, b) => rational(a.n * b.d, a.d * b.n);
/** @type {(a: Rational) => Rational} */
export const negate = (a) => ({ n: -a.n, d: a.d });
/** @type {(a: Rational) => Rational} */
export const half = (a) => rational(a.n, a.d * 2n);
/**
 * Below 0, 0 or above 0, as a is to b.
 * @param {Rational} a
 * @param {Rational} b
 * @returns {-1 | 0 | 1}
 */
export function compare(a, b) {
  const difference = a.n * b.d - b.n * a.d;
  return difference < 0n ? -1 : difference > 0n ? 1 : 0;
}
/** @type {(a: Rational) => boolean} */
export const isZero = (a) => a.n === 0n;
/**
 * Whether a is b.
 * @type {(a: Rational, b: Rational) => boolean}
 */
export const equal = (a, b) => a.n * b.d === b.n * a.d;

const DECIMAL = /^([+-]?)(\d+\.?\d*|\.\d+)$/;

/**
 * @param {string} text  an optional sign, digits and an optional point
 * @returns {Rational | null} null where it is no such text
 */
export function decimal(text) {
  const found = DECIMAL.exec(text);
  if (found === null) {
    return null;
  }
  const [, sign, size = ""] = found;
  const [whole, fraction = ""] = size.split(".");
  const digits = BigInt(whole + fraction);
  return rational(sign === "-" ? -digits : digits, 10n ** BigInt(fraction.length));
}

/**
 * @param {Rational} value
 * @param {bigint} modulus  greater than 0
 * @returns {Rational} the value less the greatest multiple of the modulus that is not above it
 */
export function modulo(value, modulus) {
  const size = modulus * value.d;
  return rational(((value.n % size) + size) % size, value.d);
}

/**
 * @param {Rational} value
 * @returns {bigint} the nearest whole number, ties away from zero
 */
export function nearest({ n, d }) {
  const size = n < 0n ? -n : n;
  const rounded = (2n * size + d) / (2n * d);
  return n < 0n ? -rounded : rounded;
}

/**
 * @param {Rational} value
 * @returns {string} as few digits as tell it; at most nine decimals where it has no end
 */
export function shown(value) {
  const scaled = nearest(multiply(value, rational(1_000_000_000n)));
  return decimalText(scaled, 9);
}

/**
 * @param {bigint} value
 * @param {number} decimals
 * @returns {string} value / 10^decimals, without zeros at the end
 */
export function decimalText(value, decimals) {
  const digits = (value < 0n ? -value : value).toString().padStart(decimals + 1, "0");
  const whole = digits.slice(0, -decimals);
  const fraction = digits.slice(-decimals).replace(/0+$/, "");
  return `${value < 0n ? "-" : ""}${whole}${fraction === "" ? "" : `.${fraction}`}`;
}

// Reals in fixed point

/**
 * A rational as a real of fixed point, at most one last bit below it.
 * @param {Rational} value
 * @returns {bigint}
 */
export function fixed({ n, d }) {
  const scaled = n << BITS;
  return n < 0n && scaled % d !== 0n ? scaled / d - 1n : scaled / d;
}

/**
 * The product of a rational and a real.
 * @type {(value: Rational, real: bigint) => bigint}
 */
export const times = ({ n, d }, real) => (n * real) / d;

/**
 * @param {bigint} real
 * @returns {bigint} the nearest whole number, ties away from zero
 */
export function roundReal(real) {
  const size = real < 0n ? -real : real;
  const rounded = (size + (ONE >> 1n) + TIE) >> BITS;
  return real < 0n ? -rounded : rounded;
}

/**
 * A real as a float, for messages alone.
 * @type {(real: bigint) => number}
 */
export const approximately = (real) => Number(real >> (BITS - 52n)) / 2 ** 52;

/**
 * @param {Rational} value  not below 0
 * @returns {bigint} its square root as a real
 */
export function squareRoot({ n, d }) {
  const radicand = (n << (2n * BITS)) / d;
  if (radicand < 2n) {
    return radicand;
  }
  let root = 1n << BigInt(Math.ceil(radicand.toString(2).length / 2));
  for (;;) {
    const next = (root + radicand / root) >> 1n;
    if (next >= root) {
      return root;
    }
    root = next;
  }
}

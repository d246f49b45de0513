// Lengths of drill files as exact decimals: whole numbers of 10^-9 units, mm or inches, which a double holds up to some
// million units.

import { Unsaid } from "../report.js";

/** How many places camplot reads. */
const MOST_DECIMALS = 9;
/** One unit, in 10^-9 units. */
export const ONE = 1e9;
// Whole parts of more digits than these are past every limit of a drill file.
const WHOLE_DIGITS = 6;
const POWERS = Array.from({ length: MOST_DECIMALS + 1 }, (_, exponent) => 10 ** exponent);
/** @type {(exponent: number) => number} the power of ten, at most of as many places as camplot reads */
const power = (exponent) => /** @type {number} */ (POWERS[exponent]);
const NUMBER = /^[+-]*(?:(\d+)(?:\.(\d*))?|\.(\d+))$/;

/** The units of lengths. */
export const MM = "mm", INCH = "inch";
/** Which zeros a file writes; the others are left out. */
export const LEADING = "leading", TRAILING = "trailing", BOTH = "both";

/**
 * How many digits stand before the point and after it, where none is left out.
 * @typedef {{whole: number, decimals: number}} Digits
 *
 * @typedef {"mm" | "inch"} Unit
 * @typedef {"leading" | "trailing" | "both"} Zeros  those that a file writes
 */

/**
 * The digits before the point and after it that a number's text stands for.
 * @param {string} text a number with a point, or one that is placed by digits and zeros
 * @param {Digits | null} digits
 * @param {Zeros | null} zeros
 * @returns {{isNegative: boolean, whole: string, decimals: string}} without zeros that say nothing
 * @throws {Unsaid} where it is no number, or nothing places it
 */
function partsOf(text, digits, zeros) {
  const found = NUMBER.exec(text);
  if (!found) throw new Unsaid(`${text || "nothing"} is no number: write it in digits`);
  let whole = found[1] ?? "", decimals = found[2] || found[3] || "";
  if (!text.includes(".") && /[1-9]/.test(whole)) {
    if (!digits || !zeros) throw new Unsaid(`${text} has no point: give --format, as --format 2.4, and --zeros leading or --zeros trailing`);
    const body = zeros === LEADING ? whole.padEnd(digits.whole, "0") : whole.padStart(digits.decimals + 1, "0");
    const point = zeros === LEADING ? digits.whole : body.length - digits.decimals;
    whole = body.slice(0, point);
    decimals = body.slice(point);
  }
  return { isNegative: text.startsWith("-"), whole: whole.replace(/^0+/, ""), decimals: withoutLastZeros(decimals) };
}

/** @param {string} digits */
function withoutLastZeros(digits) {
  let end = digits.length;
  while (end > 0 && digits.charCodeAt(end - 1) === 48) end--;
  return digits.slice(0, end);
}

/**
 * The value of a number's text as a decimal with a point: `1.5`, `-0.002`, `3.0`.
 * @param {string} text
 * @param {Digits | null} digits
 * @param {Zeros | null} zeros
 * @returns {string}
 */
export function decimalOf(text, digits, zeros) {
  const { isNegative, whole, decimals } = partsOf(text, digits, zeros);
  const sign = isNegative && (whole || decimals) ? "-" : "";
  return `${sign}${whole || "0"}.${decimals || "0"}`;
}

/**
 * The length that a number's text stands for.
 * @param {string} text
 * @param {Digits | null} digits
 * @param {Zeros | null} zeros
 * @returns {number} in 10^-9 units; Infinity or -Infinity where it is a million units or more
 * @throws {Unsaid} where it is no number, nothing places it, or it has more places than camplot reads
 */
export function lengthOf(text, digits, zeros) {
  const { isNegative, whole, decimals } = partsOf(text, digits, zeros);
  if (decimals.length > MOST_DECIMALS) {
    throw new Unsaid(`${decimalOf(text, digits, zeros)} has more than the ${MOST_DECIMALS} decimals that camplot reads: `
      + "choose fewer");
  }
  if (whole.length > WHOLE_DIGITS) return isNegative ? -Infinity : Infinity;
  const value = Number(whole + decimals) * power(MOST_DECIMALS - decimals.length);
  return isNegative && value ? -value : value;
}

/**
 * A function that gives the length of a coordinate that stands in a line from one place to before another, as `lengthOf`
 * does, where it has few digits and no sign but `-`; else NaN.
 * @param {Digits | null} digits
 * @param {Zeros | null} zeros
 * @returns {(line: string, from: number, to: number) => number}
 */
export function quickReader(digits, zeros) {
  const places = digits && zeros && zeros !== LEADING ? digits.decimals : -1;
  const whole = digits && zeros === LEADING ? digits.whole : NaN;
  return (line, from, to) => {
    const isNegative = line.charCodeAt(from) === 45;
    const start = isNegative ? from + 1 : from;
    let value = 0, point = -1;
    if (to - start < 1 || to - start > 12) return NaN;
    for (let at = start; at < to; at++) {
      const code = line.charCodeAt(at);
      if (code >= 48 && code <= 57) value = value * 10 + code - 48;
      else if (code === 46 && point < 0) point = at;
      else return NaN;
    }
    if (value === 0) return point >= 0 && to - start === 1 ? NaN : 0;
    const decimals = point >= 0 ? to - 1 - point : zeros === LEADING ? to - start - whole : places;
    if (!(decimals >= 0 && decimals <= MOST_DECIMALS) || value >= 1e6 * power(decimals)) return NaN;
    return value * (isNegative ? -power(MOST_DECIMALS - decimals) : power(MOST_DECIMALS - decimals));
  };
}

/**
 * A length as a decimal with a point and no zeros that say nothing.
 * @param {number} length in 10^-9 units, finite
 * @returns {string}
 */
export function lengthText(length) {
  if (length === 0) return "0.0";
  const size = Math.abs(length);
  const whole = Math.floor(size / ONE);
  let rest = size - whole * ONE, places = MOST_DECIMALS;
  if (rest === 0) return `${length < 0 ? "-" : ""}${whole}.0`;
  while (rest % 10 === 0) {
    rest /= 10;
    places--;
  }
  return `${length < 0 ? "-" : ""}${whole}.${String(rest).padStart(places, "0")}`;
}

/** @type {Map<string, [unit: Unit, places: number]>} */
const FACTORS = new Map([
  ["mm", [MM, 0]], ["micron", [MM, 3]], ["microns", [MM, 3]],
  ["inch", [INCH, 0]], ["inches", [INCH, 0]], ["in", [INCH, 0]], ["mil", [INCH, 3]], ["mils", [INCH, 3]],
]);

/**
 * What a name of a unit stands for: a unit, and how many decimal places below it.
 * @param {string} name
 */
function factorOf(name) {
  const factor = FACTORS.get(name.toLowerCase());
  if (!factor) throw new Unsaid(`${name} is no unit: write mm, inch or mil`);
  return factor;
}

/**
 * A length with the name of its unit, as `12` and `mil`, in the unit that is wanted.
 * @param {string} number a decimal
 * @param {string} name of the unit
 * @param {"mm" | "inch"} wanted
 * @returns {number} in 10^-9 of the wanted unit
 * @throws {Unsaid} where it is no such decimal, or has no exact decimals in that unit
 */
export function sizeOf(number, name, wanted) {
  const [unit, places] = factorOf(name);
  const parts = partsOf(/\./.test(number) ? number : `${number}.`, null, null);
  const whole = parts.whole.padStart(places, "0");
  const at = whole.length - places;
  const length = lengthOf(`${whole.slice(0, at)}.${whole.slice(at)}${parts.decimals}0`, null, null);
  const exact = unit === wanted ? length : unit === INCH ? length * 254 / 10 : length * 10 / 254;
  if (!Number.isInteger(exact) && Number.isFinite(exact)) {
    throw new Unsaid(`a diameter of ${lengthText(length)} ${unit} has no exact decimals in ${wanted}: give it by --tool`);
  }
  return exact;
}

/**
 * The unit that a name stands for.
 * @param {string} name
 * @returns {"mm" | "inch"}
 */
export function unitOf(name) {
  return factorOf(name)[0];
}

/**
 * A length in mm.
 * @param {number} length in 10^-9 of its unit
 * @param {string} unit
 * @returns {number} mm, nearly
 */
export function inMm(length, unit) {
  return unit === INCH ? length * 25.4 / ONE : length / ONE;
}

/**
 * A length in mm to a micrometre, for the eye; halves go to the even one.
 * @param {number} length in 10^-9 of its unit
 * @param {string} unit
 * @returns {string}
 */
export function micrometres(length, unit) {
  const tenths = length * (unit === INCH ? 254 : 10), step = 1e7;
  let count = Math.floor(tenths / step);
  const rest = tenths - count * step;
  if (rest > step / 2 || (rest === step / 2 && count % 2 !== 0)) count++;
  return lengthText(count * 1e6);
}

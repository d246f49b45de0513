// The form of a drill file's numbers: how its unit, digits and zeros are settled among options, the file, a report and
// the coordinates.

import { Unsaid } from "../report.js";
import { DEFAULT_DIGITS } from "./hints.js";
import { BOTH, LEADING, MM, TRAILING } from "./lengths.js";

/** @typedef {import("./lengths.js").Digits} Digits */
/** @typedef {import("./lengths.js").Unit} Unit */
/** @typedef {import("./lengths.js").Zeros} Zeros */

/**
 * Digits as `2:4`.
 * @param {Digits} digits
 */
function digitsText({ whole, decimals }) {
  return `${whole}:${decimals}`;
}

/** @type {Record<string, string>} */
const ZEROS_WORDS = {
  [LEADING]: "leading ones are written, trailing ones left out",
  [TRAILING]: "trailing ones are written, leading ones left out",
  [BOTH]: "all are written",
};

/** @param {import("./hints.js").Told<string | Digits>} told */
function toldText({ value, source }) {
  return `${typeof value === "string" ? ZEROS_WORDS[value] ?? value : digitsText(value)} (${source})`;
}

/** @param {string | Digits} one @param {string | Digits} other */
function isSame(one, other) {
  return typeof one === "string" || typeof other === "string" ? one === other : digitsText(one) === digitsText(other);
}

/**
 * The option's value, else what all sources agree on; null where there is none.
 * @template {string | Digits} T
 * @param {string} kind
 * @param {T | null | undefined} chosen
 * @param {import("./hints.js").Told<T>[]} told
 * @param {string} option
 * @returns {import("./hints.js").Told<T> | null}
 */
function settled(kind, chosen, told, option) {
  if (chosen) return { value: chosen, source: option };
  const definite = told.filter(({ value }) => value !== BOTH);
  const [first = null, ...others] = definite.length ? definite : told;
  const other = first && others.find(({ value }) => !isSame(value, first.value));
  if (first && other) {
    throw new Unsaid(`the ${kind} is given in two ways, ${toldText(first)} and ${toldText(other)}: choose one by ${option}`);
  }
  return first;
}

/**
 * A coordinate without a point that is not 0: its digits, without their sign, and its line.
 * @typedef {{digits: string, line: number}} Pointless
 */

// Whether the line that begins there does so with a code and not with a word.
/** @param {string} text @param {number} start */
function isCoded(text, start) {
  const first = text.charCodeAt(start), second = text.charCodeAt(start + 1);
  const isDigit = second >= 48 && second <= 57;
  if (first === 88 || first === 89) return isDigit || second === 46 || second === 43 || second === 45;
  return isDigit && (first === 71 || first === 77 || first === 78 || first === 84);
}

// Calls `each(start, end, line)` with each run of digits that is a coordinate without a point and is not 0, of lines that
// begin with a code and not with a word.
/** @param {import("./lines.js").Lines} lines @param {(start: number, end: number, line: number) => void} each */
function forEachPointless(lines, each) {
  const { text } = lines;
  for (let line = 0; line < lines.count; line++) {
    const first = lines.startOf(line), last = lines.endOf(line);
    if (!isCoded(text, first)) continue;
    for (let at = first; at < last; at++) {
      const letter = text.charCodeAt(at);
      if (letter !== 88 && letter !== 89) continue;
      const sign = text.charCodeAt(at + 1);
      const start = sign === 43 || sign === 45 ? at + 2 : at + 1;
      let end = start, isZero = true, next = text.charCodeAt(end);
      for (; next >= 48 && next <= 57; next = text.charCodeAt(++end)) isZero &&= next === 48;
      if (!isZero && next !== 46) each(start, end, line + 1);
      at = end - 1;
    }
  }
}

/**
 * The coordinates without a point that are not 0. They differ in what they tell of digits and zeros by their lengths and
 * by the zeros at their ends alone: the first of each such sort, in the file's order.
 * @param {import("./lines.js").Lines} lines
 * @returns {Pointless[]}
 */
function pointlessIn(lines) {
  /** @type {Pointless[]} */
  const found = [], seen = new Set(), { text } = lines;
  forEachPointless(lines, (start, end, line) => {
    const key = 4 * (end - start) + (text.charCodeAt(start) === 48 ? 2 : 0) + (text.charCodeAt(end - 1) === 48 ? 1 : 0);
    if (seen.has(key)) return;
    seen.add(key);
    found.push({ digits: text.slice(start, end), line });
  });
  return found;
}

// The first coordinate that has a zero which the others leave out, so that these zeros may be the wrong ones.
/** @param {Pointless[]} numbers @param {Digits} digits @param {Zeros} zeros */
function oddZeros(numbers, { whole, decimals }, zeros) {
  const all = whole + decimals;
  if (zeros === LEADING) {
    return numbers.find(({ digits }) => whole < digits.length && digits.length < all && digits.endsWith("0"));
  }
  if (zeros === TRAILING) return numbers.find(({ digits }) => digits.length < all && digits.startsWith("0"));
  return undefined;
}

// The zeros that are written, where the coordinates themselves leave one choice.
/** @param {Pointless[]} numbers @param {Digits} digits @returns {import("./hints.js").Told<Zeros>} */
function zerosThatFit(numbers, digits) {
  const all = digits.whole + digits.decimals;
  if (numbers.every((number) => number.digits.length === all)) {
    return { value: BOTH, source: `every coordinate has all ${all} digits` };
  }
  const noLeading = oddZeros(numbers, digits, LEADING), noTrailing = oddZeros(numbers, digits, TRAILING);
  /** @type {(odd: Pointless, what: string) => string} */
  const source = (odd, what) => `worked out: ${odd.digits} on line ${odd.line} has a ${what} zero`;
  if (noLeading && !noTrailing) return { value: TRAILING, source: source(noLeading, "trailing") };
  if (noTrailing && !noLeading) return { value: LEADING, source: source(noTrailing, "leading") };
  throw new Unsaid("which zeros are left out is not given, and the coordinates do not show it: give --zeros leading or "
    + "--zeros trailing, for those that are written");
}

// Whether a coordinate of so many digits can stand in this form; with trailing zeros the board's limit judges instead.
/** @param {number} length @param {Digits} digits @param {Zeros} zeros */
function fits(length, { whole, decimals }, zeros) {
  const all = whole + decimals;
  if (zeros === BOTH) return length === all;
  return zeros === TRAILING || length <= all;
}

const LENGTH = /[XYT]\d|[XY][+\-.]/;

/** The unit, digits and zeros of a file, each with where it comes from; digits and zeros are null where none is needed. */
export class Form {
  /**
   * @param {Pick<import("./convert.js").DrillOptions, "unit" | "digits" | "zeros">} options
   * @param {import("./hints.js").Hints} hints
   * @param {import("./lines.js").Lines} lines
   * @throws {Unsaid} where the unit or the zeros are not told, or something is given in two ways
   */
  constructor(options, hints, lines) {
    this.lines = lines;
    this.numbers = pointlessIn(lines);
    this.unit = settled("unit", options.unit, hints.units, "--unit") ?? this.unitOfNothing();
    /** @type {import("./hints.js").Told<Digits> | null} */
    this.digits = null;
    /** @type {import("./hints.js").Told<Zeros> | null} */
    this.zeros = null;
    if (this.numbers.length) {
      this.digits = settled("number of digits", options.digits, hints.digits, "--format")
        ?? { value: DEFAULT_DIGITS[this.unit.value], source: `assumed: what Excellon machines take in ${this.unit.value}` };
      this.zeros = settled("zeros", options.zeros, hints.zeros, "--zeros")
        ?? zerosThatFit(this.numbers, this.digits.value);
    }
  }

  /** @returns {import("./hints.js").Told<Unit>} */
  unitOfNothing() {
    if (this.numbers.length || LENGTH.test(this.lines.text)) {
      throw new Unsaid("the unit is not given: give --unit mm or --unit inch");
    }
    return { value: MM, source: "the file has no length" };
  }

  /** The coordinates that have more digits, or fewer, than the form allows. */
  refusals() {
    /** @type {import("../report.js").Refusal[]} */
    const refusals = [];
    if (!this.digits || !this.zeros) return refusals;
    const digits = this.digits.value, zeros = this.zeros.value;
    if (this.numbers.every((number) => fits(number.digits.length, digits, zeros))) return refusals;
    forEachPointless(this.lines, (start, end, line) => {
      if (fits(end - start, digits, zeros)) return;
      const what = `${this.lines.text.slice(start, end)} does not fit ${digitsText(digits)} digits: give others by --format, as --format 2.4`;
      refusals.push({ line, what });
    });
    return refusals;
  }

  /** What is told of the form, line by line. */
  told() {
    if (!this.digits || !this.zeros) {
      return [`unit: ${toldText(this.unit)}`, "digits and zeros: not needed, each coordinate has a point or is 0"];
    }
    const odd = oddZeros(this.numbers, this.digits.value, this.zeros.value);
    const look = odd ? [`LOOK: ${odd.digits} on line ${odd.line} has a zero that such a file leaves out`] : [];
    return [`unit: ${toldText(this.unit)}`, `digits: ${toldText(this.digits)}`, `zeros: ${toldText(this.zeros)}`, ...look];
  }
}

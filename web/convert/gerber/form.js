/** How a file writes coordinates: the forms of `%FS`. */

import { Unsaid } from "../report.js";

const FORMAT = /^FS([LTD])([AI])(?:N\d)?(?:G\d)?X(\d)(\d)Y(\d)(\d)(?:D\d)?(?:M\d)?$/;
/** One that does not tell which zeros are omitted. */
const WITHOUT_ZEROS = /^FSA(?:N\d)?(?:G\d)?X(\d)(\d)Y\1\2(?:D\d)?(?:M\d)?$/;
const MOST_DIGITS = 15;

/** What `--zeros` calls those that are written, by the letter of those that are left out. */
/** @type {Record<string, string>} */
const WRITTEN = { L: "trailing", T: "leading" };

export class Form {
  /**
   * @param {string} omits  the zeros that are left out, L or T; D where a point is there
   * @param {[number, number]} whole  digits before the point, of X and of Y
   * @param {[number, number]} decimals  digits behind it
   */
  constructor(omits, whole, decimals) {
    this.omits = omits;
    this.whole = whole;
    this.decimals = decimals;
    /** The digits of the form in which camplot reads each coordinate of this one. */
    this.targetWhole = Math.min(Math.max(...whole, 1), 6);
    this.targetDecimals = Math.max(...decimals, 1);
    /** Whether camplot reads coordinates of this form as they stand. */
    this.isRead = omits === "L" && whole.every((digits) => digits === this.targetWhole) &&
      decimals.every((digits) => digits === this.targetDecimals);
  }

  /** @returns {string} the command of the form that is written */
  get target() {
    const digits = `${this.targetWhole}${this.targetDecimals}`;
    return `FSLAX${digits}Y${digits}`;
  }

  /** @returns {string} the options that give this form, or its command where none do */
  get options() {
    const [x, y] = [0, 1].map((axis) => `${this.whole[axis]}.${this.decimals[axis]}`);
    const zeros = WRITTEN[this.omits];
    return x !== y || zeros === undefined ? "" : `--format ${x}${zeros === "trailing" ? "" : ` --zeros ${zeros}`}`;
  }

  /** @param {Form} other */
  equals(other) {
    return this.omits === other.omits && `${this.whole} ${this.decimals}` === `${other.whole} ${other.decimals}`;
  }

  /**
   * How many zeros stand behind the digits of a coordinate in steps of the form that is written.
   * @param {number} axis  0 of X and I, 1 of Y and J
   * @param {number} count  of the digits
   * @param {number} fraction  how many of them stand behind a point; -1 where there is none
   * @returns {number} below 0 where `steps` has to judge
   */
  zerosBehind(axis, count, fraction) {
    if (fraction >= 0) {
      return this.targetDecimals - fraction;
    }
    const [whole, decimals] = axis === 0 ? [this.whole[0], this.decimals[0]] : [this.whole[1], this.decimals[1]];
    const left = this.targetDecimals - decimals;
    if (this.omits === "T") {
      const missing = whole + decimals - count;
      return missing < 0 ? -1 : left + missing;
    }
    return this.omits === "D" ? -1 : left;
  }

  /**
   * A coordinate in steps of the form that is written: a whole number, below 10^15.
   * @param {string} letter  X, Y, I or J
   * @param {string} text
   * @returns {number}
   * @throws {Unsaid} where it is no number of this form, or has more decimals
   */
  steps(letter, text) {
    const axis = letter === "X" || letter === "I" ? 0 : 1;
    const body = text.replace(/^[+-]/, "");
    const [whole, decimals] = [this.whole[axis], this.decimals[axis]];
    const scaled = body.includes(".") ? pointed(body, this.targetDecimals)
      : this.digits(letter, text, body, whole, decimals) + "0".repeat(this.targetDecimals - decimals);
    if (scaled === null) {
      throw new Unsaid(`${letter}${text} has more decimals than its format: choose a format of more decimals`);
    }
    if (scaled.replace(/^0+/, "").length > MOST_DIGITS) {
      throw new Unsaid(`${letter}${text} has more than ${MOST_DIGITS} digits: choose a format of fewer`);
    }
    const size = Number(scaled);
    return text.startsWith("-") && size !== 0 ? -size : size;
  }

  /**
   * All digits of a coordinate without a point.
   * @param {string} letter
   * @param {string} text
   * @param {string} body
   * @param {number} whole
   * @param {number} decimals
   */
  digits(letter, text, body, whole, decimals) {
    if (this.omits === "T") {
      if (body.length > whole + decimals) {
        throw new Unsaid(`${letter}${text} has more digits than ${whole}:${decimals}: choose the format that it has`);
      }
      return body.padEnd(whole + decimals, "0");
    }
    if (this.omits === "D" && body.length !== whole + decimals && Number(body) !== 0) {
      throw new Unsaid(`${letter}${text} has neither a point nor all ${whole + decimals} digits: choose the form that ` +
        "leaves leading zeros out");
    }
    return body;
  }
}

/**
 * The digits of a decimal with so many behind its point; null where it has more.
 * @param {string} body
 * @param {number} decimals
 */
function pointed(body, decimals) {
  const [whole = "", fraction = ""] = body.split(".");
  const kept = fraction.slice(0, decimals).padEnd(decimals, "0");
  return /[1-9]/.test(fraction.slice(decimals)) ? null : whole + kept;
}

/**
 * The form that options give.
 * @param {{whole: number, decimals: number}} digits
 * @param {"leading" | "trailing" | undefined} zeros  those that are written
 * @returns {Form}
 */
export function formOfOptions({ whole, decimals }, zeros) {
  return new Form(zeros === "leading" ? "T" : "L", [whole, whole], [decimals, decimals]);
}

/**
 * @param {string} command  an FS command, without skipped bytes
 * @param {Form | null} [given]  the form that options give: it settles which zeros are omitted
 * @returns {Form}
 * @throws {Unsaid} where it names none that is known
 */
export function formOf(command, given = null) {
  const found = FORMAT.exec(command);
  const digits = found === null ? WITHOUT_ZEROS.exec(command) : null;
  if (digits !== null && given !== null) {
    const [whole = 0, decimals = 0] = digits.slice(1).map(Number);
    return new Form(given.omits, [whole, whole], [decimals, decimals]);
  }
  if (digits !== null) {
    const option = `--format ${digits[1]}.${digits[2]}`;
    throw new Unsaid(`%${command}*% does not tell which zeros are omitted: give ${option} where they are the leading ones, ` +
      `and ${option} --zeros leading where they are the trailing ones`);
  }
  if (found === null) {
    throw new Unsaid(`%${command}*% is a format that is not known: choose leading or trailing zeros omitted (L, ` +
      "T), absolute coordinates (A), and the digits of X and Y");
  }
  const [, omits = "", way, ...counts] = found;
  if (way === "I") {
    throw new Unsaid(`%${command}*% means incremental coordinates: choose absolute ones`);
  }
  const [wholeX = 0, decimalsX = 0, wholeY = 0, decimalsY = 0] = counts.map(Number);
  if (Math.max(decimalsX, decimalsY) > 6) {
    throw new Unsaid(`%${command}*% has more than 6 decimals: choose fewer`);
  }
  return new Form(omits, [wholeX, wholeY], [decimalsX, decimalsY]);
}

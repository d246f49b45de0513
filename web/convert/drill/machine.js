// What the codes of an Excellon drill file make the machine do: it goes, drills and routs.

import { Unsaid } from "../report.js";
import { Drilling } from "./drilling.js";
import { ONE, decimalOf, inMm, lengthOf, quickReader } from "./lengths.js";
import { whyNotLetter } from "./words.js";

const BOARD_MM = 1000;
// Coordinates are hits, or the tool goes to a rout's start, or cuts one.
const DRILLING = "drilling", RAISED = "raised", LOWERED = "lowered";

/**
 * A code: a letter and the number behind it.
 * @typedef {[string, string]} Code
 */

/** The machine: its tool, where it is, and what it drilled and routed. What it cannot do throws Unsaid. */
export class Machine {
  /**
   * @param {"mm" | "inch"} unit
   * @param {import("./lengths.js").Digits | null} digits
   * @param {import("./lengths.js").Zeros | null} zeros
   */
  constructor(unit, digits, zeros) {
    this.drilling = new Drilling(unit);
    this.digits = digits;
    this.zeros = zeros;
    this.quick = quickReader(digits, zeros);
    // Lengths below this are on the board in any case.
    this.near = inMm(ONE, unit) > 1 ? 39 * ONE : 999 * ONE;
    this.height = DRILLING;
    this.hasCut = false;
    /** @type {number | null} */
    this.tool = null;
    this.x = this.y = 0;
    /** @type {[number, number][]} */
    this.rout = [];
    this.slots = 0;
  }

  get isLowered() {
    return this.height === LOWERED;
  }

  /**
   * Stops a code that may not stand while the tool is down.
   * @param {string} code
   */
  raisedOnly(code) {
    if (this.isLowered) throw new Unsaid(`${code} while the tool is down: add the M16 that is missing before it`);
  }

  /**
   * Reads a line of an X and a Y that makes a hit, as most are.
   * @param {string} text
   * @param {number} start where the line begins
   * @param {number} end where it ends
   * @returns {boolean} whether it was one
   */
  isPlainHit(text, start, end) {
    if (text.charCodeAt(start) !== 88 || this.height !== DRILLING || this.tool === null) return false;
    let middle = start + 1;
    while (middle < end && text.charCodeAt(middle) !== 89) middle++;
    const x = this.quick(text, start + 1, middle), y = this.quick(text, middle + 1, end);
    if (!(Math.abs(x) < this.near && Math.abs(y) < this.near)) return false;
    this.hit(x, y);
    return true;
  }

  /**
   * G05 or G81: what follows are hits.
   * @param {Code[]} rest
   */
  drill(rest) {
    this.height = DRILLING;
    if (rest.length) this.place(rest);
  }

  /**
   * G00: goes to a rout's start.
   * @param {Code[]} rest
   */
  approach(rest) {
    this.height = RAISED;
    if (rest.length) this.goTo(rest);
  }

  /**
   * G01: cuts to a point.
   * @param {Code[]} rest
   */
  cutTo(rest) {
    if (!this.isLowered) throw new Unsaid("G01 while the tool is up: add the M15 that is missing before it");
    this.hasCut = true;
    if (rest.length) {
      this.goTo(rest);
      this.rout.push([this.x, this.y]);
    }
  }

  /** M15: begins a rout. */
  lower() {
    if (this.isLowered) throw new Unsaid("M15 while the tool is down: add the M16 that is missing before it");
    if (this.height !== RAISED) throw new Unsaid("M15 with no G00 before it: add the G00 to where the rout starts");
    this.needTool();
    this.height = LOWERED;
    this.hasCut = false;
    this.rout = [[this.x, this.y]];
  }

  /** M16: ends the rout. */
  raise() {
    this.drilling.rout(this.needTool(), this.rout);
    this.height = RAISED;
  }

  /**
   * A hit, a slot by G85, or where routing is modal a further cut.
   * @param {Code[]} codes
   */
  place(codes) {
    const half = codes.findIndex(([letter, text]) => letter === "G" && text === "85");
    if (this.height === DRILLING && half < 0) {
      this.goTo(codes);
      this.hit(this.x, this.y);
    } else if (this.height === DRILLING) {
      this.goTo(codes.slice(0, half));
      /** @type {[number, number]} */
      const start = [this.x, this.y];
      this.goTo(codes.slice(half + 1));
      const tool = this.needTool();
      this.slots++;
      this.drilling.rout(tool, [start, [this.x, this.y]]);
    } else if (this.isLowered && this.hasCut && half < 0) {
      this.cutTo(codes);
    } else {
      throw new Unsaid("a coordinate or a slot that the mode of routing does not cover: add the G05, G00 or G01 that is "
        + "missing before it");
    }
  }

  /** @param {number} x @param {number} y */
  hit(x, y) {
    this.x = x;
    this.y = y;
    this.drilling.hit(this.needTool(), x, y);
  }

  /**
   * Goes to the point of X and Y; what is missing is as it was last.
   * @param {Code[]} codes
   */
  goTo(codes) {
    const texts = new Map(codes), isAxis = (/** @type {Code} */ [letter]) => letter === "X" || letter === "Y";
    if (codes.length === 0 || texts.size !== codes.length || !codes.every(isAxis)) {
      const shown = codes.map(([letter, text]) => letter + text).join("");
      const why = codes.map(([letter]) => whyNotLetter(letter)).find((found) => found);
      throw new Unsaid(`${shown || "nothing"} is ${why ?? "no point: write one X and one Y"}`);
    }
    const xText = texts.get("X"), yText = texts.get("Y");
    const x = xText === undefined ? this.x : this.coordinate(xText);
    const y = yText === undefined ? this.y : this.coordinate(yText);
    this.x = x;
    this.y = y;
  }

  /**
   * The length of a number's text.
   * @param {string} text
   */
  length(text) {
    return lengthOf(text, this.digits, this.zeros);
  }

  /** @param {string} text */
  coordinate(text) {
    const { unit } = this.drilling, value = this.length(text);
    if (Math.abs(inMm(value, unit)) < BOARD_MM) return value;
    throw new Unsaid(`a coordinate of ${decimalOf(text, this.digits, this.zeros)} ${unit} is 1 m or more from 0: give `
      + "the unit, the digits or the zeros by --unit mm or inch, --format 2.4 or --zeros leading or trailing");
  }

  /** The tool that makes a hole. */
  needTool() {
    if (this.tool === null) throw new Unsaid("a hole before any tool is selected: add the T that is missing before it");
    return this.tool;
  }
}

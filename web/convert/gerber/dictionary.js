/**
 * The apertures and macros of a file by the numbers and names that it gives them, and by those that are written.
 *
 * @typedef {import("../exact.js").Rational} Rational
 * @typedef {{text: string, at?: number}} Slot  a place of the output whose text is settled at the end
 */

import { NEAREST } from "./advice.js";
import { commandsFrom } from "./cut.js";
import { macroOf } from "./macros.js";

const PREFIX = "Nearest";
/** Which parameter is the first of a hole. */
/** @type {Map<string, number>} */
const HOLE_AT = new Map([["C", 1], ["R", 2], ["O", 2], ["P", 3]]);
const D_CAPITAL = 68, D_SMALL = 100, ZERO = 48, NINE = 57;
const GREATEST_NUMBER = 2_147_483_647;

/** An aperture as AD or AB defines it. */
export class Aperture {
  /**
   * @param {object} definition
   * @param {number} definition.number  as it is written
   * @param {string} definition.template  C, R, O, P, the name of a macro, or AB for a block
   * @param {Rational[]} definition.sizes  the parameters
   * @param {import("./macros.js").Macro | null} [definition.macro]
   * @param {string} definition.text  the command, for messages
   * @param {number} definition.line
   * @param {string} [definition.unsaid]  why camplot refuses it, where it does
   */
  constructor({ number, template, sizes, macro = null, text, line, unsaid = "" }) {
    this.number = number;
    this.template = template;
    this.sizes = sizes;
    this.macro = macro;
    this.text = text;
    this.line = line;
    this.unsaid = unsaid;
    /** Whether it is written as it stands, so that operations may use it as they stand. */
    this.isKept = unsaid === "";
    /** Whether no option helps: what it is used for is refused with it. */
    this.isHopeless = unsaid !== "" && !unsaid.includes(NEAREST);
    this.isUsed = false;
    /** Whether other apertures are written for some of what is painted with it. */
    this.isReplaced = false;
    /** What is written of one that has one side alone; nothing of another. */
    this.square = "";
    /** @type {{slot: Slot, text: string}[]} where it is selected */
    this.selections = [];
    this.hasHole = sizes.slice(HOLE_AT.get(template) ?? sizes.length).some((size) => size.n !== 0n);
    this.isSolidCircle = template === "C" && !this.hasHole;
    this.isSolidRectangle = template === "R" && !this.hasHole;
    /** What tells whether two definitions are the same. */
    const values = sizes.map(({ n, d }) => `${n}/${d}`).join("X");
    this.key = `${macro === null ? template : `${macro.name}*${macro.key}`},${values}`;
  }
}

export class Dictionary {
  /** @param {import("./state.js").State} state */
  constructor(state) {
    this.state = state;
    /** @type {Map<number, Aperture>} by the numbers of the file */
    this.apertures = new Map();
    /** @type {Map<string, import("./macros.js").Macro>} by the names of the file */
    this.macros = new Map();
    /** @type {Map<string, number>} the numbers of those that were made, by what they are made of */
    this.made = new Map();
    /** @type {{aperture: Aperture, slot: Slot}[]} those whose definitions are settled at the end, and where */
    this.waiting = [];
    /** @type {Map<string, {macro: import("./macros.js").Macro, line: number}[]> | null} */
    this.later = null;
    this.lastNumber = 0;
    /** @type {Set<string>} */
    this.takenNames = new Set();
  }

  /** @param {number} number @returns {Aperture | null} what a number of the file is now */
  of(number) {
    return this.apertures.get(number) ?? null;
  }

  /** @returns {number} an aperture number that the file has nowhere */
  freeNumber() {
    if (this.lastNumber === 0) {
      this.lastNumber = Math.max(9, greatestNumber(this.state.bytes));
    }
    this.lastNumber += 1;
    return this.lastNumber;
  }

  /** @param {string} wanted @returns {string} a macro's name that the file does not have */
  freeName(wanted) {
    let name = wanted;
    while (this.takenNames.has(name) || this.macros.has(name) || this.laterMacros().has(name)) {
      name += "_";
    }
    this.takenNames.add(name);
    return name;
  }

  /** @param {number} number @returns {string} the name of a macro that is made for an aperture */
  nameFor(number) {
    return this.freeName(`${PREFIX}${number}`);
  }

  /** The macros that the file defines from here on, by name: the first of each. */
  laterMacros() {
    if (this.later === null) {
      const { bytes, cutter } = this.state;
      this.later = new Map();
      for (const { text, raw, line, isExtended } of commandsFrom(bytes, cutter.start, cutter.line, true)) {
        if (isExtended && /^AM/i.test(text)) {
          const macro = macroOf(raw, () => {});
          this.later.set(macro.name, [...(this.later.get(macro.name) ?? []), { macro, line }]);
        }
      }
    }
    return this.later;
  }

  /**
   * A macro that the file defines behind the command that names it.
   * @param {string} name
   * @returns {{macro: import("./macros.js").Macro, line: number} | null}
   */
  laterMacro(name) {
    const { line } = this.state;
    return this.laterMacros().get(name)?.find((found) => found.line >= line) ?? null;
  }
}

/**
 * The greatest number that stands behind a D and leaves room for a million more.
 * @param {Uint8Array} bytes
 */
function greatestNumber(bytes) {
  let greatest = 0;
  for (let at = 0; at < bytes.length; at++) {
    if (bytes[at] === D_CAPITAL || bytes[at] === D_SMALL) {
      let value = 0;
      for (let digit = at + 1, byte = bytes[digit] ?? 0; byte >= ZERO && byte <= NINE; byte = bytes[++digit] ?? 0) {
        value = 10 * value + byte - ZERO;
      }
      if (value > greatest && value < GREATEST_NUMBER - 1_000_000) {
        greatest = value;
      }
    }
  }
  return greatest;
}

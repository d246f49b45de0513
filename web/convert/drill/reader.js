// An Excellon drill file line by line: what it drills, and what in it cannot be written in XNC.

import { Changes, Unsaid } from "../report.js";
import { tellsForm, unitHints } from "./hints.js";
import { numberForZero } from "./lines.js";
import { Machine } from "./machine.js";
import { FEEDS, diameterOf, toolNumber, unitLine } from "./tools.js";
import { isNeutralCode, isNeutralWord, whyNotCode, whyNotLetter, whyNotWord } from "./words.js";

// No number can be matched in two ways: else a long line takes for ever.
const NUMBER = "[+-]?(?:[0-9]+(?:\\.[0-9]*)?|\\.[0-9]*)?";
const CODE = new RegExp(`([A-Z])(${NUMBER})`, "g");
const CODES = new RegExp(`^(?:[A-Z]${NUMBER})+$`);
const LENGTH = /[XYT]\d|[XY][+\-.]/;

/** @typedef {import("./machine.js").Code} Code */

/** What the lines before have told. */
export class Reader {
  /**
   * @param {"mm" | "inch"} unit
   * @param {import("./lengths.js").Digits | null} digits
   * @param {import("./lengths.js").Zeros | null} zeros
   * @param {Map<number, number>} given the diameters of tools by options, in 10^-9 units
   * @param {Map<number, import("./hints.js").ToldTool>} told the tools by comments and a report
   */
  constructor(unit, digits, zeros, given, told) {
    this.machine = new Machine(unit, digits, zeros);
    this.given = given;
    this.told = told;
    /** @type {import("../report.js").Refusal[]} */
    this.refusals = [];
    this.changes = new Changes();
    // Comments, and the numbers of tools, in their order.
    /** @type {(string | number)[]} */
    this.header = [];
    /** @type {Set<number>} */
    this.declared = new Set();
    this.hasHeader = this.isInHeader = this.isFormatOne = false;
    // The line of the end, once it is read.
    this.ended = 0;
    this.toolZero = 0;
    this.line = 0;
  }

  /** What was drilled and routed so far. */
  get drilling() {
    return this.machine.drilling;
  }

  /**
   * Reads all lines.
   * @param {import("./lines.js").Lines} lines
   */
  read(lines) {
    this.toolZero = numberForZero(lines);
    for (let at = 0; at < lines.count; at++) {
      this.line = at + 1;
      try {
        this.readLine(lines, at);
      } catch (fault) {
        if (!(fault instanceof Unsaid)) throw fault;
        this.refusals.push({ line: this.line, what: fault.message });
      }
    }
    if (!this.ended) {
      this.refusals.push({ line: this.line, what: "the end is missing (M30): the file was cut short; where it is whole, "
        + "add the line M30" });
    }
  }

  /** @param {string} what */
  change(what) {
    this.changes.add(what, this.line);
  }

  /** @param {import("./lines.js").Lines} lines @param {number} at */
  readLine(lines, at) {
    const start = lines.startOf(at), end = lines.endOf(at);
    if (this.ended) this.checkBehindEnd(lines.code(at));
    else if (start < end && !this.machine.isPlainHit(lines.text, start, end)) this.readCode(lines.code(at));
    const comment = lines.comments.get(at + 1);
    if (comment !== undefined) this.keepComment(comment);
  }

  /** @param {string} code */
  checkBehindEnd(code) {
    if (LENGTH.test(code)) {
      throw new Unsaid(`${code.slice(0, 40)} stands after the end on line ${this.ended}: cut the file there, or take `
        + "the end out");
    }
  }

  /** @param {string} comment */
  keepComment(comment) {
    if (tellsForm(comment)) this.change("the comment on digits and zeros is left out");
    else if (this.isInHeader || !(this.hasHeader || this.drilling.itemTools.length)) this.header.push(`;${comment}`);
    else this.change("the comment after the header is left out");
  }

  /** @param {string} code */
  readCode(code) {
    if (code === "M48") {
      this.hasHeader = this.isInHeader = true;
    } else if (code === "%" || code === "M95") {
      this.endHeader(code);
    } else if (/^\(.*\)$/.test(code)) {
      this.change("the comment in parentheses is left out");
    } else if (unitHints(code, this.line)) {
      if (code !== "METRIC" && code !== "INCH") {
        this.change(`${code} is written as ${unitLine(this.drilling.unit)}, at the front`);
      }
    } else if (isNeutralWord(code)) {
      this.isFormatOne ||= code === "FMAT,1";
      this.change(`${code} is left out: it moves no hole`);
    } else {
      this.readCodes(cut(code));
    }
  }

  /** @param {string} code */
  endHeader(code) {
    if (this.isInHeader) this.isInHeader = false;
    else this.change(`${code} is left out where no header ends`);
  }

  /** @param {import("./machine.js").Code[]} codes */
  readCodes(codes) {
    const [first, ...rest] = codes;
    if (!first) return;
    const [letter, text] = first;
    if (letter === "N") {
      this.change("line numbers (N) are left out");
      this.readCodes(rest);
    } else if (letter === "T") {
      this.nameTool(text, rest);
    } else if (letter === "G" || letter === "M") {
      if (!/^\d+$/.test(text)) throw new Unsaid(`${letter}${text} is no code: choose Excellon format 2 or XNC`);
      if (letter === "G") this.preparatory(Number(text), rest);
      else this.miscellaneous(Number(text), rest);
    } else if (letter === "X" || letter === "Y") {
      this.machine.place(codes);
    } else {
      const why = whyNotLetter(letter) ?? "no code that is known: choose Excellon format 2 or XNC";
      throw new Unsaid(`${letter}${text} is ${why}`);
    }
  }

  /** @param {number} number @param {Code[]} rest */
  preparatory(number, rest) {
    const { machine } = this, isZero = (/** @type {Code} */ [, text]) => machine.length(text) === 0;
    if (number === 5 || number === 81) {
      machine.raisedOnly(`G${padded(number)}`);
      if (number === 81) this.change("G81 is written as G05");
      machine.drill(rest);
    } else if (number === 0) {
      machine.raisedOnly("G00");
      machine.approach(rest);
    } else if (number === 1) {
      machine.cutTo(rest);
    } else if ((number === 92 || number === 93) && rest.length && rest.every(isZero)) {
      this.change("a zero point at (0, 0) is left out");
    } else if (number === 4) {
      this.change("a dwell (G04) is left out: it moves no hole");
    } else {
      this.neutralOnly("G", number, rest);
    }
  }

  /** @param {number} number @param {Code[]} rest */
  miscellaneous(number, rest) {
    const isAlone = rest.length === 0;
    if (isAlone && number === 15) this.machine.lower();
    else if (isAlone && (number === 16 || number === 17)) this.raise(number);
    else if (isAlone && (number === 30 || number === 0 || (number === 2 && this.isFormatOne))) this.end(number);
    else this.neutralOnly("M", number, rest);
  }

  /** @param {string} letter @param {number} number @param {Code[]} rest */
  neutralOnly(letter, number, rest) {
    const shown = letter + padded(number);
    if (rest.length || !isNeutralCode(letter, number)) {
      throw new Unsaid(`${shown} with what stands on its line is ${whyNotCode(letter, number)}`);
    }
    this.change(`${shown} is left out: it moves no hole`);
  }

  /** @param {number} number */
  raise(number) {
    if (!this.machine.isLowered) {
      this.change(`M${number} is left out where the tool is up`);
      return;
    }
    if (number === 17) this.change("M17 is written as M16");
    this.machine.raise();
  }

  /** @param {number} number */
  end(number) {
    const shown = `M${padded(number)}`;
    this.machine.raisedOnly(shown);
    if (number !== 30) this.change(`${shown} is written as M30`);
    this.ended = this.line;
  }

  /**
   * Declares a tool in the header, and selects one in the body, which may declare it first.
   * @param {string} text
   * @param {Code[]} rest
   */
  nameTool(text, rest) {
    const own = toolNumber(text), number = own || this.toolZero;
    if (!own && number) this.change(`T${text} is written as T${number}: in XNC T0 selects no tool`);
    const first = rest.findIndex(([letter]) => letter !== "C" && !FEEDS.has(letter));
    const count = first < 0 ? rest.length : first;
    const sizes = new Map(rest.slice(0, count));
    const places = rest.slice(count);
    if (sizes.size < count || places.some(([letter]) => letter === "C" || FEEDS.has(letter))) {
      throw new Unsaid(`T${text}: parameters that are not known: leave them out, but the diameter`);
    }
    if (sizes.size > (sizes.has("C") ? 1 : 0)) this.change("feeds, speeds and hit limits of tools are left out");
    if (!this.isInHeader) {
      this.machine.raisedOnly("a change of tool");
      this.machine.tool = number || null;
    }
    if (number && (this.isInHeader || sizes.has("C") || !this.drilling.diameters.has(number))) {
      this.declare(number, sizes.get("C"));
    }
    const [place] = places;
    if (places.length === 1 && place?.[0] === "M" && Number(place[1]) === 6) {
      this.change("M06 is left out: it moves no hole");
    } else {
      this.readCodes(places);
    }
  }

  /** @param {number} number @param {string | undefined} size */
  declare(number, size) {
    const { diameters, unit } = this.drilling;
    // A tool without a diameter is told once.
    const before = diameters.get(number);
    if (before === undefined) diameters.set(number, 0);
    let diameter = this.given.get(number);
    if (diameter === undefined) {
      const found = diameterOf(number, size, this.told.get(number), unit);
      if (found.source !== null) this.change(`the diameter of T${number} is from ${found.source}`);
      diameter = found.diameter;
    }
    if (before && before !== diameter) {
      throw new Unsaid(`T${number} has another diameter here than before: give it a number of its own`);
    }
    if (!this.declared.has(number)) {
      this.declared.add(number);
      this.header.push(number);
      if (!this.isInHeader) this.change("tools are declared in the header");
    }
    diameters.set(number, diameter);
  }
}

/**
 * A line's codes.
 * @param {string} code
 * @returns {import("./machine.js").Code[]}
 */
function cut(code) {
  if (!CODES.test(code) || /^[A-Z]{2}/.test(code)) {
    throw new Unsaid(`${code.slice(0, 40)} is ${whyNotWord(/^[A-Z]*/.exec(code)?.[0] ?? "")}`);
  }
  return [...code.matchAll(CODE)].map(([, letter = "", text = ""]) => [letter, text]);
}

// A code's number as it is mostly written.
/** @param {number} number */
function padded(number) {
  return String(number).padStart(2, "0");
}

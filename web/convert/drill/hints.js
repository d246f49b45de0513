// What a drill file's header, its comments and a report tell of the form of its numbers and of its tools.

import { Unsaid } from "../report.js";
import { BOTH, INCH, LEADING, MM, TRAILING, unitOf } from "./lengths.js";

/**
 * A unit, digits or zeros, and where they come from.
 * @template T
 * @typedef {{value: T, source: string}} Told
 */

/**
 * What a comment or a report tells of a tool: its diameter with the name of its unit, and how many holes it makes.
 * @typedef {{diameter: string, unit: string, count: number | null, source: string}} ToldTool
 */

/** The digits that are assumed where nothing tells them. */
export const DEFAULT_DIGITS = { [MM]: { whole: 3, decimals: 3 }, [INCH]: { whole: 2, decimals: 4 } };

/** All that a source tells of units, digits, zeros and tools. */
export class Hints {
  constructor() {
    /** @type {Told<import("./lengths.js").Unit>[]} */
    this.units = [];
    /** @type {Told<import("./lengths.js").Digits>[]} */
    this.digits = [];
    /** @type {Told<import("./lengths.js").Zeros>[]} */
    this.zeros = [];
    /** @type {Map<number, ToldTool>} */
    this.tools = new Map();
    /** @type {string[]} the sources that tell of incremental coordinates */
    this.incremental = [];
  }

  /**
   * Adds what another source tells.
   * @param {Hints} other
   */
  join(other) {
    this.units.push(...other.units);
    this.digits.push(...other.digits);
    this.zeros.push(...other.zeros);
    this.incremental.push(...other.incremental);
    for (const [number, tool] of other.tools) this.tools.set(number, tool);
  }

  /** Whether nothing of units, digits, zeros and tools is told. */
  get isEmpty() {
    return !(this.units.length || this.digits.length || this.zeros.length || this.tools.size);
  }

  /** Adds digits, given as numbers or as their texts. */
  /**
   * @param {number | string} whole
   * @param {number | string} decimals
   * @param {string} source
   */
  addDigits(whole, decimals, source) {
    this.digits.push({ value: { whole: Number(whole), decimals: Number(decimals) }, source });
  }

  /** Adds a source that tells of incremental coordinates, where its word is not "absolute". */
  /** @param {string} mode @param {string} source */
  addMode(mode, source) {
    if (mode.toLowerCase() !== "absolute") this.incremental.push(source);
  }
}

const HEADER_UNIT = /^(METRIC|INCH|M71|M72)((?:,[^,]*)*)$/;
/** @type {Map<string, import("./lengths.js").Zeros>} */
const HEADER_ZEROS = new Map([["LZ", LEADING], ["TZ", TRAILING]]);
const HEADER_DIGITS = /^(0+)\.(0+)$/;

/**
 * What a line such as `METRIC,LZ,000.000` or `M72` tells.
 * @param {string} code
 * @param {number} line
 * @returns {Hints | null} null where it is no such line
 * @throws {Unsaid} where a word of it is not known
 */
export function unitHints(code, line) {
  const found = HEADER_UNIT.exec(code);
  if (!found) return null;
  const [, name, words = ""] = found, hints = new Hints(), source = `${code} on line ${line}`;
  hints.units.push({ value: name === "METRIC" || name === "M71" ? MM : INCH, source });
  for (const word of words.split(",").slice(1)) {
    const digits = HEADER_DIGITS.exec(word), zeros = HEADER_ZEROS.get(word);
    if (zeros) hints.zeros.push({ value: zeros, source });
    else if (digits) hints.addDigits(digits[1]?.length ?? 0, digits[2]?.length ?? 0, source);
    else throw new Unsaid(`${code}: ${word || "nothing"} after a comma is not known: choose METRIC or INCH, LZ or TZ`);
  }
  return hints;
}

// What a program writes into a comment has no more characters.
const COMMENT = 500;
const ALTIUM_FORMAT = /FILE_FORMAT=(\d):(\d)/;
const KICAD_FORMAT = /FORMAT=\{([\d-]):([\d-])\s*\/\s*(\w+)\s*\/\s*(\w+)\s*\/\s*([\w ]+?)\s*\}/i;
/** @type {Map<string, import("./lengths.js").Zeros>} */
const KICAD_ZEROS = new Map([["suppress leading zeros", TRAILING], ["suppress trailing zeros", LEADING], ["keep zeros", BOTH]]);
const MENTOR_FORMAT = /Format\s*:\s*(\d)\.(\d)\s*\/\s*(\w+)\s*\/\s*(MM|INCH)\b/i;
const ALLEGRO_TOOL = new RegExp("(?:T(\\d+)\\s+)?Holesize\\s+(\\d+)\\.?\\s*=\\s*([\\d.]+)\\b.*\\b(MILS|INCHES|MM|MICRONS)\\b"
  + "(?:\\s+Quantity\\s*=\\s*(\\d+))?", "i");

/** @param {RegExpExecArray} found @param {number} line */
function kicadHints(found, line) {
  const hints = new Hints(), source = `the comment FORMAT={..} on line ${line}`;
  const [, whole = "", decimals = "", mode = "", unit = "", zeros = ""] = found;
  if (whole !== "-" && decimals !== "-") hints.addDigits(whole, decimals, source);
  hints.units.push({ value: unit.toLowerCase() === "metric" ? MM : INCH, source });
  hints.addMode(mode, source);
  const value = KICAD_ZEROS.get(zeros.toLowerCase());
  if (value) hints.zeros.push({ value, source });
  return hints;
}

/** @param {RegExpExecArray} found @param {number} line */
function mentorHints([, whole = "", decimals = "", mode = "", unit = ""], line) {
  const hints = new Hints(), source = `the comment Format : .. on line ${line}`;
  hints.addDigits(whole, decimals, source);
  hints.units.push({ value: unitOf(unit), source });
  hints.addMode(mode, source);
  return hints;
}

/**
 * What a comment of KiCad's, Altium's, Mentor's or Allegro's tells of the numbers or of a tool.
 * @param {string} comment
 * @param {number} line
 * @returns {Hints}
 */
export function commentHints(comment, line) {
  if (comment.length > COMMENT) return new Hints();
  const hints = new Hints();
  const altium = ALTIUM_FORMAT.exec(comment), kicad = KICAD_FORMAT.exec(comment), mentor = MENTOR_FORMAT.exec(comment);
  if (altium) {
    const [shown, whole = "", decimals = ""] = altium;
    hints.addDigits(whole, decimals, `${shown} in the comment on line ${line}`);
    return hints;
  }
  if (kicad) return kicadHints(kicad, line);
  if (mentor) return mentorHints(mentor, line);
  const tool = ALLEGRO_TOOL.exec(comment);
  if (tool) {
    const [, number, byHole, diameter = "", unit = "", quantity] = tool;
    const count = quantity === undefined ? null : Number(quantity);
    hints.tools.set(Number(number ?? byHole),
      { diameter, unit, count, source: `the comment on line ${line}` });
  }
  return hints;
}

/** Whether a comment is about digits or zeros, which the XNC file no longer has. */
/** @param {string} comment */
export function tellsForm(comment) {
  return comment.length <= COMMENT && [ALTIUM_FORMAT, KICAD_FORMAT, MENTOR_FORMAT].some((form) => form.test(comment));
}

const EAGLE_UNITS = /^[ \t]*Units[ \t]*:[ \t]*1\/(10+)[ \t]*(inch|mm)/im;
const EAGLE_MODE = /^[ \t]*Data Mode[ \t]*:[ \t]*(\w+)/im;
const EAGLE_TOOL = /^[ \t]*T(\d+)[ \t]+([\d.]+)[ \t]*(inch|mm|mil)[ \t]+(\d+)[ \t]*$/gim;
const ALLEGRO_WORD = /^[ \t]*([A-Z][A-Z-]+)[ \t]+(\S+)[ \t]*$/gm;

/**
 * What a report tells that a CAD program wrote with the file: EAGLE's `.dri` or Allegro's `nc_param.txt`.
 * @param {string} text
 * @param {string} name the report's
 * @returns {Hints} empty where it is neither
 */
export function reportHints(text, name) {
  const found = EAGLE_UNITS.exec(text);
  if (!found) {
    const words = new Map([...text.matchAll(ALLEGRO_WORD)].map(([, word = "", value = ""]) => [word, value.toUpperCase()]));
    return allegroHints(words, name);
  }
  const [shown = "", scale = "", itsName = ""] = found;
  const hints = new Hints(), unit = unitOf(itsName);
  const source = `${shown.trim().split(/\s+/).join(" ")} in ${name}`;
  hints.units.push({ value: unit, source });
  hints.addDigits(DEFAULT_DIGITS[unit].whole, scale.length - 1, source);
  hints.zeros.push({ value: TRAILING, source });
  const mode = EAGLE_MODE.exec(text)?.[1];
  if (mode !== undefined) hints.addMode(mode, `Data Mode in ${name}`);
  for (const [, number, diameter = "", itsUnit = "", count] of text.matchAll(EAGLE_TOOL)) {
    hints.tools.set(Number(number), { diameter, unit: itsUnit, count: Number(count), source: name });
  }
  return hints;
}

/** @type {Map<string, import("./lengths.js").Zeros>} */
const ALLEGRO_ZEROS = new Map([["NO NO", BOTH], ["YES NO", TRAILING], ["NO YES", LEADING]]);

/** @type {Map<string, import("./lengths.js").Unit>} */
const ALLEGRO_UNITS = new Map([["ENGLISH", INCH], ["METRIC", MM]]);

/** @param {Map<string, string>} words @param {string} name */
function allegroHints(words, name) {
  const hints = new Hints();
  const digits = /^(\d)\.(\d)$/.exec(words.get("FORMAT") ?? "");
  if (digits) hints.addDigits(digits[1] ?? "", digits[2] ?? "", `FORMAT in ${name}`);
  const unit = ALLEGRO_UNITS.get(words.get("OUTPUT-UNITS") ?? "");
  if (unit) hints.units.push({ value: unit, source: `OUTPUT-UNITS in ${name}` });
  hints.addMode(words.get("COORDINATES") ?? "ABSOLUTE", `COORDINATES in ${name}`);
  const zeros = ALLEGRO_ZEROS.get(`${words.get("SUPPRESS-LEAD-ZEROES")} ${words.get("SUPPRESS-TRAIL-ZEROES")}`);
  if (zeros) hints.zeros.push({ value: zeros, source: `SUPPRESS-..-ZEROES in ${name}` });
  return hints;
}

// Netlists in the forms IPC-D-356 and IPC-D-356A, as KiCad, Altium, EAGLE and pcb-rnd write them.

import { hasByteOrderMark, latin1 } from "../bytes/index.js";
import { CONTINUED, LEFT_OUT, Unread, continued, pointOf } from "./ipc_record.js";

/**
 * What a netlist has.
 * @typedef {object} Netlist
 * @property {import("./ipc_record.js").Point[]} points in order
 * @property {string} unit what one count is, in words
 * @property {number} nm how many nm one count is
 * @property {boolean} isUnitTold whether the file says so
 * @property {Map<string, number>} leftOut how many records of each code say nothing of points
 */

/** What one count may be. */
export const INCHES = { nm: 2540, words: "0.0001 inch" };
export const MILLIMETRES = { nm: 1000, words: "0.001 mm" };

/** What one count is, by what `P  UNITS` has; a file without such a line is in inches. */
const UNITS = new Map([["CUST 0", INCHES], ["CUST 1", MILLIMETRES], ["CUST 2", INCHES]]);

const SUBSTITUTE = 0x1a;
const RECORD = /^[03]\d\d/;
const END = "999";

/**
 * Whether bytes look like a netlist of this form: their first line is one of it.
 * @param {Uint8Array} bytes the file, or its beginning
 */
export function isNetlist(bytes) {
  const lines = textOf(bytes.subarray(0, 65536)).split(/\r\n|\r|\n/).filter((line) => line.trim() !== "");
  const first = lines.find((line) => !line.startsWith("C"));
  return first !== undefined && (/^P +\S/.test(first) || /^3(?:07|17|27|67).{54}/.test(first))
    && lines.some((line) => /^P +UNITS +/.test(line) || /^3(?:07|17|27|67).{35}A\d\dX/.test(line));
}

/** @param {Uint8Array} bytes */
function textOf(bytes) {
  let end = bytes.length;
  // Some programs end a file as CP/M did.
  while (bytes[end - 1] === SUBSTITUTE) end--;
  return latin1(bytes.subarray(hasByteOrderMark(bytes) ? 3 : 0, end));
}

const LF = 10, CR = 13;

/**
 * Each line, one after another: a list of a million would cost more than what is read of them.
 * @param {string} text
 * @param {(line: string, number: number) => void} take
 */
function eachLine(text, take) {
  let from = 0, number = 0;
  for (let at = 0; at <= text.length; at++) {
    const code = at < text.length ? text.charCodeAt(at) : LF;
    if (code !== LF && code !== CR) continue;
    take(text.slice(from, at), ++number);
    if (code === CR && text.charCodeAt(at + 1) === LF) at++;
    from = at + 1;
  }
}

class Reader {
  constructor() {
    /** @type {typeof INCHES | null} */
    this.unit = null;
    /** @type {Map<string, string>} */
    this.aliases = new Map();
    /** @type {Netlist["points"]} */
    this.points = [];
    /** @type {Netlist["leftOut"]} */
    this.leftOut = new Map();
    this.isEnded = false;
    /** @type {string | null} that of the point that was read last */
    this.record = null;
  }

  /** @param {string} line @param {number} number */
  take(line, number) {
    const foreign = /[^\x20-\x7e\t\x80-\xff]/.exec(line);
    if (foreign) throw new Unread(`the character ${line.charCodeAt(foreign.index)} is no text`);
    const text = line.trimEnd();
    if (text === "") return;
    if (this.isEnded) throw new Unread("a line stands after 999, the end");
    if (text === END) this.isEnded = true;
    else if (/^P( |$)/.test(text)) this.takeParameter(text.slice(1).trim());
    else if (RECORD.test(text)) this.takeRecord(text, number);
    else if (!text.startsWith("C")) throw new Unread("the line begins with none of P, C, a record's number and 999");
  }

  /** @param {string} text */
  takeParameter(text) {
    const [, key = "", value = ""] = /^(\S+) *(.*)$/.exec(text) ?? [];
    if (key === "UNITS") this.takeUnit(value);
    else if (/^NNAME/.test(key)) this.takeAlias(key, value);
  }

  /** @param {string} value */
  takeUnit(value) {
    const unit = UNITS.get(value.replace(/ +/g, " "));
    if (!unit) throw new Unread(`UNITS ${value.slice(0, 20).trim()} is none of ${[...UNITS.keys()].join(", ")}`);
    if (this.unit !== null && this.unit.nm !== unit.nm) throw new Unread("UNITS stands twice, with two values");
    if (this.unit === null && this.points.length) throw new Unread("UNITS stands after the first record");
    this.unit = unit;
  }

  /** @param {string} key @param {string} name */
  takeAlias(key, name) {
    if (name === "") throw new Unread(`${key} has no name`);
    if ((this.aliases.get(key) ?? name) !== name) throw new Unread(`${key} stands twice, with two names`);
    this.aliases.set(key, name);
  }

  /** @param {string} text @param {number} number */
  takeRecord(text, number) {
    const code = text.slice(0, 3);
    if (LEFT_OUT.includes(code)) {
      this.leaveOut(code);
      return;
    }
    const record = CONTINUED.has(code) ? continued(text, this.record) : text;
    if (record === null) {
      this.leaveOut(code);
      return;
    }
    this.points.push(pointOf(record, number, (this.unit ?? INCHES).nm, this.aliases));
    this.record = record;
  }

  /** @param {string} code */
  leaveOut(code) {
    this.leftOut.set(code, (this.leftOut.get(code) ?? 0) + 1);
  }
}

/**
 * Reads a netlist.
 * @param {Uint8Array} bytes
 * @returns {{netlist: Netlist | null, refusals: import("../convert/index.js").Refusal[]}} null where a line is refused
 */
export function readNetlist(bytes) {
  const reader = new Reader();
  /** @type {import("../convert/index.js").Refusal[]} */
  const refusals = [];
  let last = 1;
  eachLine(textOf(bytes), (line, number) => {
    if (line.trim() !== "") last = number;
    try {
      reader.take(line, number);
    } catch (fault) {
      if (!(fault instanceof Unread)) throw fault;
      refusals.push({ line: number, what: fault.message });
    }
  });
  if (!reader.isEnded) refusals.push({ line: last, what: "the file ends without 999" });
  else if (!refusals.length && !reader.points.length) refusals.push({ line: last, what: "the file has no point" });
  if (refusals.length) return { netlist: null, refusals };
  const { nm, words } = reader.unit ?? INCHES, { points, leftOut } = reader;
  return { netlist: { points, unit: words, nm, isUnitTold: reader.unit !== null, leftOut }, refusals };
}

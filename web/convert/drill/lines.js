// The lines of an Excellon drill file, and what they tell of its form.

import { latin1 } from "../../bytes/index.js";
import { Unsaid } from "../report.js";
import { Hints, commentHints, unitHints } from "./hints.js";

/**
 * The lines of a file: its text without blanks and comments, in which each line ends with LF, and where the lines begin.
 * Nothing is cut out of it before it is needed: files have a million lines.
 */
export class Lines {
  /**
   * @param {string} text
   * @param {Map<number, string>} comments by the lines' numbers from 1
   */
  constructor(text, comments) {
    this.text = text;
    this.comments = comments;
    this.starts = startsOf(text);
  }

  /** How many lines there are. */
  get count() {
    return this.starts.length - 1;
  }

  /**
   * Where a line begins, counted from 0, in the text.
   * @param {number} at
   */
  startOf(at) {
    return /** @type {number} */ (this.starts[at]);
  }

  /**
   * Where a line ends, counted from 0, in the text.
   * @param {number} at
   */
  endOf(at) {
    return this.startOf(at + 1) - 1;
  }

  /**
   * A line's code.
   * @param {number} at the line, from 0
   */
  code(at) {
    return this.text.slice(this.startOf(at), this.endOf(at));
  }
}

// Where each line begins, and one place past the end.
/** @param {string} text */
function startsOf(text) {
  let count = 1;
  for (let at = text.indexOf("\n"); at >= 0; at = text.indexOf("\n", at + 1)) count++;
  const starts = new Uint32Array(count + 1);
  for (let line = 1, at = 0; line < count; line++) {
    at = text.indexOf("\n", at) + 1;
    starts[line] = at;
  }
  starts[count] = text.length + 1;
  return starts;
}

/** @param {string} text @param {Map<number, string>} comments */
function withoutComments(text, comments) {
  let line = 1, start = 0;
  return text.replace(/;([^\n]*)/g, (_, /** @type {string} */ comment, /** @type {number} */ at) => {
    for (let end = text.indexOf("\n", start); end >= 0 && end < at; end = text.indexOf("\n", start)) {
      line++;
      start = end + 1;
    }
    comments.set(line, comment);
    return "";
  });
}

/**
 * The lines of a file, which end with LF, CR or CR LF; a comment runs from `;` to its line's end.
 * @param {Uint8Array} bytes
 * @returns {Lines}
 */
export function linesOf(bytes) {
  const comments = new Map();
  let text = latin1(bytes);
  if (text.includes("\r")) text = text.replace(/\r\n?/g, "\n");
  if (text.includes(";")) text = withoutComments(text, comments);
  if (/[ \t]/.test(text)) text = text.replace(/[ \t]+/g, "");
  return new Lines(text, comments);
}

/**
 * What all lines tell of units, digits, zeros and tools, first those of code and then the comments.
 * @param {Lines} lines
 * @param {import("../report.js").Refusal[]} refusals where lines are added of which a word is not known
 * @returns {Hints}
 */
export function hintsIn(lines, refusals) {
  const hints = new Hints();
  for (let at = 0; at < lines.count; at++) {
    const first = lines.text.charCodeAt(lines.startOf(at));
    if (first !== 73 && first !== 77) continue;
    try {
      const found = unitHints(lines.code(at), at + 1);
      if (found) hints.join(found);
    } catch (fault) {
      if (!(fault instanceof Unsaid)) throw fault;
      refusals.push({ line: at + 1, what: fault.message });
    }
  }
  for (const [line, comment] of lines.comments) hints.join(commentHints(comment, line));
  return hints;
}

/**
 * The number for a tool 0 that a file declares, one past all others.
 * @param {Lines} lines
 * @returns {number} 0 where it declares none
 */
export function numberForZero(lines) {
  let most = 0, hasZero = false;
  for (let at = 0; at < lines.count; at++) {
    if (lines.text.charCodeAt(lines.startOf(at)) !== 84) continue;
    const found = /^T(\d{1,4})([^XY]*)/.exec(lines.code(at));
    if (!found) continue;
    const number = Number(found[1]);
    most = Math.max(most, number);
    hasZero ||= number === 0 && (found[2] ?? "").includes("C");
  }
  return hasZero ? most + 1 : 0;
}

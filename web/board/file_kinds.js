// Whether a file is a Gerber file or a drill file, told by what it holds.

import { hasByteOrderMark, latin1 } from "../bytes/index.js";

/** How many bytes of a file tell its kind and what it shows. */
export const HEAD = 65536;

/** How a file is loaded: the words of `load`. */
export const GERBER = "gerber";
export const DRILL = "drill";

/**
 * @param {"gerber" | "drill"} kind
 * @returns {string} the ending of a file's name, with its point
 */
export function endingOf(kind) {
  return kind === DRILL ? ".drl" : ".gbr";
}

const BEGIN = /^(?:%[ \t\v\f]*(?!PD)(?:[A-Z]{2}|$)|\*|[GDM]\d|[XY][-+]?\d)/;
const EXTENDED = /%[ \t\r\n\v\f]*(?:FS|MO|TF|AM|AD|LP|IN|IC)/;
const WORD = /G0?4[^0-9][^*]*\*|[XY][-+]?\d+D0?[123]\*/;
const HOLE = /^(?:T\d+)?X[-+]?[\d.]+Y[-+]?[\d.]+/;
const TOOL = /^T\d+(?:[CFS].*)?$/;

/**
 * What a file is by its first bytes.
 * @param {Uint8Array} bytes the file, or its first 65,536 bytes
 * @returns {"gerber" | "drill" | null} null where it looks like neither a Gerber file nor a drill file
 */
export function kindOf(bytes) {
  const head = latin1(bytes.subarray(hasByteOrderMark(bytes) ? 3 : 0, HEAD));
  const lines = head.split(/[\r\n]+/).map(stripped).filter((line) => line && !line.startsWith(";"));
  if (lines.slice(0, 3).includes("M48")) return DRILL;
  const [first] = lines;
  if (first !== undefined && BEGIN.test(first) && hasCommand(head)) return GERBER;
  const hasTools = lines.some((line) => TOOL.test(line));
  if (hasTools && (lines.includes("M30") || lines.some((line) => HOLE.test(line)))) return DRILL;
  return lines.length === 1 && first === "M30" ? DRILL : null;
}

/**
 * Whether a Gerber command stands in a text. A word ends with a star, so none stands behind the last one.
 * @param {string} head
 */
function hasCommand(head) {
  return EXTENDED.test(head) || WORD.test(head.slice(0, head.lastIndexOf("*") + 1));
}

/** @param {string} line */
function stripped(line) {
  let start = 0, end = line.length;
  while (start < end && isBlank(line.charCodeAt(start))) start++;
  while (end > start && isBlank(line.charCodeAt(end - 1))) end--;
  return line.slice(start, end);
}

/** @param {number} code */
function isBlank(code) {
  return code === 32 || code === 9 || code === 11 || code === 12;
}

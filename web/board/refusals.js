// What refusals mean, as docs/refusals.md has it, and where in a file one is.

import { latin1, utf8 } from "../bytes/index.js";
import { DRILL } from "./file_kinds.js";
import { wordsOf } from "./replies.js";

/**
 * What the page of refusals tells of a number: its name, and its first sentence.
 * @typedef {{name: string, sentence: string}} Meaning
 * @typedef {Map<number, Meaning>} Meanings
 */

/** @param {string} text */
function firstSentence(text) {
  const [head = ""] = text.split("\n- "), flat = head.split(/\s+/).filter((word) => word).join(" ");
  const [, first = flat] = /^(.+?\.)(?= |$)/.exec(flat) ?? [], sentence = first.replace(/[.:]+$/, "");
  return `${sentence.slice(0, 1).toUpperCase()}${sentence.slice(1)}.`;
}

const HEAD = /\*\*(\d+), ([^*]+?)\.?\*\*/g;
const ROW = /^\| (\d+) \| ([^|]+) \| ([^|]+) \|/gm;

/**
 * The refusals' meanings.
 * @param {string} page the text of docs/refusals.md
 * @returns {{general: Meanings, drill: Meanings}} `drill` has those of drill files, for the numbers that both kinds of
 *   files share
 */
export function meaningsOf(page) {
  /** @type {Meanings} */
  const general = new Map();
  for (const paragraph of page.split("\n\n")) {
    const heads = [...paragraph.matchAll(HEAD)];
    if (!heads.length) continue;
    const rest = (paragraph.split(/\*\*\d+, [^*]+\*\*/).pop() ?? "").replace(/^[:, \n]+/, "");
    const whole = firstSentence(rest), parts = whole.split(/;\s/);
    heads.forEach(([, number, name = ""], at) => {
      const part = (parts.length === heads.length ? parts[at] : null) ?? whole;
      if (!general.has(Number(number))) general.set(Number(number), { name, sentence: firstSentence(part) });
    });
  }
  for (const [, number, name = "", what = ""] of page.matchAll(ROW)) {
    general.set(Number(number), { name, sentence: firstSentence(what) });
  }
  return { general, drill: drillMeanings(page, general) };
}

/** @param {string} page @param {Meanings} general @returns {Meanings} */
function drillMeanings(page, general) {
  /** @type {Meanings} */
  const told = new Map();
  const [, list = ""] = /^\*\*1\*\*, [^]*?\.\s([^]*?)\n\n/m.exec(page) ?? [];
  for (const part of list.split(/\s+/).join(" ").replace(/\.+$/, "").split(/;\s/)) {
    const [, number, also, what] = /^(\d+) (also |is )?(.+)$/.exec(part) ?? [], known = general.get(Number(number));
    if (!known || what === undefined) continue;
    const sentence = also === "also " ? `${known.sentence} In a drill file also: ${what}.` : firstSentence(what);
    told.set(Number(number), { name: known.name, sentence });
  }
  return told;
}

/**
 * The meaning of a refused reply.
 * @param {import("./replies.js").Reply} reply
 * @param {{general: Meanings, drill: Meanings}} meanings
 * @returns {Meaning | undefined}
 */
function meaningOf(reply, { general, drill }) {
  const isOfDrill = reply.at !== null && wordsOf(reply.line)[2] === DRILL;
  return (isOfDrill ? drill.get(reply.refusal) : undefined) ?? general.get(reply.refusal);
}

/**
 * The line and the column, both from 1, of a place in bytes; a column counts the characters of UTF-8.
 * @param {Uint8Array} bytes
 * @param {number} at
 * @returns {{line: number, column: number}}
 */
export function placeOf(bytes, at) {
  // A place between CR and LF is the end of the line that they end.
  const end = at > 0 && bytes[at - 1] === 13 && bytes[at] === 10 ? at - 1 : at;
  const lines = latin1(bytes.subarray(0, end)).split(/\r\n|\r|\n/);
  const start = end - (lines.at(-1) ?? "").length;
  return { line: lines.length, column: [...utf8(bytes.subarray(start, end))].length + 1 };
}

/**
 * What stands at a place, up to its line's end, at most 60 bytes; what cannot be printed is a `?`.
 * @param {Uint8Array} bytes
 * @param {number} at
 * @returns {string}
 */
export function excerpt(bytes, at) {
  let start = at;
  const end = Math.min(bytes.length, at + 60);
  while (start < end && (bytes[start] === 10 || bytes[start] === 13)) start++;
  let stop = start;
  while (stop < end && bytes[stop] !== 10 && bytes[stop] !== 13) stop++;
  return utf8(bytes.subarray(start, stop)).replace(/[\p{C}\p{Z}]/gu, (found) => (found === " " ? " " : "?"));
}

/**
 * A refused reply in plain words; of a file with line, column, and what stands there.
 * @param {import("./replies.js").Reply} reply
 * @param {{general: Meanings, drill: Meanings}} meanings
 * @param {Uint8Array | null} source the file that was refused, where it is known
 * @returns {string}
 */
export function explain(reply, meanings, source = null) {
  const meaning = meaningOf(reply, meanings);
  const told = meaning ? `refused ${reply.refusal}, ${meaning.name}: ${meaning.sentence}`
    : `refused ${reply.refusal}: docs/refusals.md explains it.`;
  if (reply.at === null || source === null) return told;
  const { line, column } = placeOf(source, reply.at);
  const where = ` At line ${line}, column ${column} (byte ${reply.at})`;
  if (reply.at >= source.length) return `${told}${where}, the end of the file.`;
  return `${told}${where}: ${excerpt(source, reply.at)}`;
}

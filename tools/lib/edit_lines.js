// The refused lines of --edits, as each tool with that option prints them.

import { latin1Bytes, utf8 } from "../../web/bytes/index.js";
import { explain } from "../../web/board/index.js";
import { wrongWord } from "./edit_words.js";
import { STANDARD } from "./files.js";
import { meanings } from "./station.js";

/** @typedef {{file: string, line: number, text: string, wrong: string | null, why: string}} RefusedLine */

/**
 * Where a refused line stands, the word that is wrong if one is, and why.
 * @param {import("../../web/board/index.js").Reply} reply
 * @param {number} firstOwn the number of the first line of --edits in what was run
 * @param {string} edits the file of these
 * @returns {RefusedLine}
 */
export function refusedLine(reply, firstOwn, edits) {
  return { file: edits === STANDARD ? "standard input" : edits, line: reply.number - firstOwn + 1,
    text: utf8(latin1Bytes(reply.line)), wrong: wrongWord(reply), why: explain(reply, meanings()) };
}

/**
 * The same for people.
 * @param {RefusedLine} refused
 */
export function toldLine({ file, line, text, wrong, why }) {
  return `line ${line} of ${file}${wrong === null ? "" : `, ${wrong}`}: ${text}\n  ${why}`;
}

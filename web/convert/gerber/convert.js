/**
 * Old Gerber files in the form that camplot reads.
 *
 * @typedef {object} Options
 * @property {"mm" | "inch"} [unit]  the unit of a file that does not tell it
 * @property {{whole: number, decimals: number}} [format]  the digits before and behind the point, of a file that does not
 *   tell them before its first coordinate
 * @property {"leading" | "trailing"} [zeros]  the zeros that such a file writes; without it the trailing ones
 * @property {"single" | "multi"} [arcs]  the arcs of a file with neither G74 nor G75
 * @property {boolean} [repeat]  whether coordinates without a code repeat D02 and D03 too
 * @property {boolean} [nearest]  whether what has no exact form is written by the nearest that has one
 *
 * @typedef {object} Converted
 * @property {Uint8Array | null} bytes  the file as it is written; null where anything is refused
 * @property {import("../report.js").Change[]} changes
 * @property {import("../report.js").Refusal[]} refusals
 * @property {{count: number, flashes: number, draws: number}} operations
 */

import { Changes, Failure, Unsaid } from "../report.js";
import { hasByteOrderMark, latin1 } from "../../bytes/index.js";
import { CONTROLS, isComment } from "./cut.js";
import { settleApertures } from "./definitions.js";
import { rewriteExtended } from "./extended.js";
import { passQuickWord } from "./quick_words.js";
import { State } from "./state.js";
import { rewriteWord } from "./words.js";

const LF = 10, CR = 13, SPACE = 32, TAB = 9;

/**
 * A Gerber file written so that camplot reads it and it means the same; what is written is read again and compared.
 * @param {Uint8Array} bytes
 * @param {Options} [options]
 * @returns {Converted}
 * @throws {Failure} where an option contradicts the file, or it is UTF-16
 * @example
 * const { bytes, changes, refusals } = convertGerber(file, { nearest: true });
 */
export function convertGerber(bytes, options = {}) {
  const changes = new Changes();
  const source = withoutMark(bytes, changes);
  const state = rewritten(source, options, changes);
  const { said } = state;
  const operations = { count: said.count, flashes: said.flashes, draws: said.draws };
  const refusals = state.refusals.sort((a, b) => (a.line ?? 0) - (b.line ?? 0));
  const told = changes.list.sort((a, b) => a.line - b.line);
  if (refusals.length > 0) {
    return { bytes: null, changes: told, refusals, operations };
  }
  const written = state.output.finished();
  if (state.output.isChanged) {
    checkAgain(written, said);
  }
  return { bytes: written, changes: told, refusals, operations };
}

/** @param {Uint8Array} bytes @param {Changes} changes */
function withoutMark(bytes, changes) {
  const [first, second] = bytes;
  if ((first === 0xff && second === 0xfe) || (first === 0xfe && second === 0xff)) {
    throw new Failure("the file is UTF-16: save it as plain text");
  }
  if (!hasByteOrderMark(bytes)) {
    return bytes;
  }
  changes.add("a byte order mark is left out", 1);
  return bytes.subarray(3);
}

/**
 * Reads what was written: nothing of it may need a change, and its operations have to be the same numbers.
 * @param {Uint8Array} written
 * @param {State["said"]} said
 */
function checkAgain(written, said) {
  const again = rewritten(written, {}, new Changes());
  const [change, refusal] = [again.changes.list[0], again.refusals[0]];
  if (again.output.isChanged || change || refusal || !again.said.equals(said)) {
    throw new Error(`the text that was made means something else: ${(change ?? refusal)?.what}`);
  }
}

/**
 * Goes through a file.
  * @param {Uint8Array} bytes
  * @param {Options} options
  * @param {Changes} changes
 * @returns {State} what it told, and what is written
 */
function rewritten(bytes, options, changes) {
  const state = new State(bytes, options, changes);
  const { cutter } = state;
  let isEnded = false;
  while (!isEnded && cutter.passGap()) {
    cleanGap(state);
    if (passQuickWord(state)) {
      continue;
    }
    if (!cutter.passCommand()) {
      break;
    }
    isEnded = rewriteCommand(state);
  }
  settleApertures(state);
  if (!isEnded) {
    state.refusals.push(missingEnd(bytes, cutter));
  }
  return state;
}

/**
 * Leaves control characters before a command out.
 * @param {State} state
 */
function cleanGap(state) {
  const { cutter, bytes } = state;
  for (let at = cutter.gap; at < cutter.start; at++) {
    const byte = bytes[at];
    if (byte !== LF && byte !== CR && byte !== SPACE && byte !== TAB) {
      state.line = cutter.line;
      state.change("control characters between commands are left out");
      state.output.replace(cutter.gap, cutter.start, [cutter.gapText.replace(CONTROLS, "")]);
      return;
    }
  }
}

/**
 * Writes a command that may not stay as it stands.
  * @param {State} state
 * @returns {boolean} whether it ends the file
 */
function rewriteCommand(state) {
  const { cutter } = state;
  const raw = cutter.text;
  state.line = cutter.line;
  try {
    const { pieces, isEnd } = isComment(raw) ? comment(state, raw)
      : cutter.isExtended ? rewriteExtended(state, raw) : rewriteWord(state, raw);
    if (pieces.length !== 1 || pieces[0] !== raw) {
      state.output.replace(cutter.start, cutter.end, withLineEnds(pieces));
    }
    return isEnd;
  } catch (error) {
    if (!(error instanceof Unsaid)) {
      throw error;
    }
    state.refusals.push({ line: cutter.line, what: error.message });
    return /M0*[02]\*$/i.test(raw.replace(/[ \t\r\n]/g, ""));
  }
}

/** @param {State} state @param {string} raw */
function comment(state, raw) {
  const clean = raw.replace(CONTROLS, "");
  if (clean !== raw) {
    state.change("control characters in a comment are left out");
  }
  return { pieces: [clean], isEnd: false };
}

/**
 * Pieces with a line end between two of them; the text of a slot has its own.
 * @param {import("./words.js").Piece[]} pieces
 */
function withLineEnds(pieces) {
  return pieces.flatMap((piece, place) => (place === 0 ? [piece] : ["\n", piece]));
}

/**
 * What is said of a file that ends before its M02.
 * @param {Uint8Array} bytes
 * @param {State["cutter"]} cutter
 */
function missingEnd(bytes, cutter) {
  const at = cutter.start;
  if (at >= bytes.length) {
    return { line: cutter.line, what: "M02* is missing: the file was cut short; if it is whole, add it" };
  }
  const [word = ""] = latin1(bytes.subarray(at, at + 200)).split(/[ \t\r\n]/);
  return { line: cutter.line, what: `${word.slice(0, 30)}: a command without its end` };
}

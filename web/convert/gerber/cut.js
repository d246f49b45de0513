/** The bytes of an old Gerber file cut into commands. */

import { latin1 } from "../../bytes/index.js";

/** How many bytes are made text at once, since a call for each command would take longer than all else. */
const PIECE = 65_536;
const LF = 10, SPACE = 32, PERCENT = 37, STAR = 42, DELETE = 127;
const SKIPPED = /[ \t\r\n]/g;
const COMMENT = /^[ \t\r\n]*[Gg][ \t\r\n]*0*4(?!\d)/;

/**
 * Whether a byte may stand in the gap before a command: what is skipped, and control characters.
 * @type {(byte: number | undefined) => boolean}
 */
const isGap = (byte) => byte !== undefined && (byte <= SPACE || byte === DELETE);

/** Goes from command to command: a word up to its `*`, or what stands from one `%` to the next. */
export class Cutter {
  /**
   * @param {Uint8Array} bytes
   * @param {number} [at]  where a gap or a command begins
   * @param {number} [line]  the line of that place, from 1
   */
  constructor(bytes, at = 0, line = 1) {
    this.bytes = bytes;
    /** Where the gap before the command begins, where the command does, and where it ends. */
    this.gap = at;
    this.start = at;
    this.end = at;
    /** The line of the command's start, and of its end. */
    this.line = line;
    this.lineAtEnd = line;
    /** The text of some bytes, and where they begin. */
    this.piece = "";
    this.pieceAt = 0;
  }

  /**
   * Goes to the next command's start.
   * @returns {boolean} whether one begins there
   */
  passGap() {
    const { bytes } = this;
    let at = this.end;
    let line = this.lineAtEnd;
    while (at < bytes.length && isGap(bytes[at])) {
      line += bytes[at] === LF ? 1 : 0;
      at += 1;
    }
    this.gap = this.end;
    this.start = at;
    this.line = line;
    return at < bytes.length;
  }

  /**
   * Finds the end of the command that begins here.
   * @returns {boolean} whether it has one
   */
  passCommand() {
    const { bytes } = this;
    let at = this.start;
    let line = this.line;
    const last = bytes[at] === PERCENT ? PERCENT : STAR;
    at += last === PERCENT ? 1 : 0;
    while (at < bytes.length && bytes[at] !== last) {
      line += bytes[at] === LF ? 1 : 0;
      at += 1;
    }
    this.end = at + 1;
    this.lineAtEnd = line;
    return at < bytes.length;
  }

  next() {
    return this.passGap() && this.passCommand();
  }

  get isExtended() {
    return this.bytes[this.start] === PERCENT;
  }

  /** The command as it stands. */
  get text() {
    return this.textOf(this.start, this.end);
  }

  get gapText() {
    return this.textOf(this.gap, this.start);
  }

  /** @param {number} start @param {number} end */
  textOf(start, end) {
    if (start < this.pieceAt || end > this.pieceAt + this.piece.length) {
      this.piece = latin1(this.bytes.subarray(start, Math.max(end, start + PIECE)));
      this.pieceAt = start;
    }
    return this.piece.slice(start - this.pieceAt, end - this.pieceAt);
  }
}

/** Control characters that are no blanks; a character of a text is a byte. */
export const CONTROLS = /[^\t\n\r -~\x80-\xff]/g;

/** @type {(text: string) => boolean} whether a word is a comment */
export const isComment = (text) => COMMENT.test(text);
/** @type {(text: string) => string} a text without skipped bytes */
export const packed = (text) => text.replace(SKIPPED, "");

const MACRO = /^[ \t\r\n]*[Aa][ \t\r\n]*[Mm]/;
const NEXT_COMMAND = /^(AD|AM|FS|MO|LP|LN|IN|SR|OF|IP|AS|MI|SF|IR|TF|TA|TO|TD|AB|LM|LR|LS|IC)/;
const WORD = /^[GDMXY][-+.\d]/;

/**
 * The commands between two `%`.
 * @param {string} text  with both `%`
 * @returns {{commands: string[], lacksEnd: boolean}} each without its last `*`, and whether the last one lacked it
 */
export function commandsIn(text) {
  const parts = text.slice(1, -1).split("*");
  const lacksEnd = parts.at(-1)?.trim() !== "";
  if (!lacksEnd) {
    parts.pop();
  }
  /** @type {string[]} */
  const commands = [];
  for (const part of parts) {
    const last = commands.at(-1);
    const isInMacro = last !== undefined && MACRO.test(last) && !NEXT_COMMAND.test(part.trim());
    if (isInMacro && !isWordIn(part)) {
      commands[commands.length - 1] = `${last}*${part}`;
    } else if (part.trim() !== "") {
      commands.push(part.replace(/^[ \t\r\n]+|[ \t\r\n]+$/g, ""));
    }
  }
  return { commands, lacksEnd };
}

/** @type {(command: string) => boolean} whether a command between two `%` is a word that stands there by mistake */
export const isWordIn = (command) => WORD.test(packed(command).toUpperCase());

/**
 * Every command from a place on; of extended ones each of those between the two `%`.
 * @param {Uint8Array} bytes
 * @param {number} at
 * @param {number} line
 * @param {boolean} [extendedAlone]  whether words outside of `%` are passed over
 * @returns {Generator<{text: string, line: number, isExtended: boolean, raw: string}>}  texts without skipped bytes, `%`
 *   and `*`; raw ones as they stand
 */
export function* commandsFrom(bytes, at, line, extendedAlone = false) {
  const cutter = new Cutter(bytes, at, line);
  while (cutter.next()) {
    if (cutter.isExtended) {
      for (const text of commandsIn(cutter.text).commands) {
        yield { text: packed(text), line: cutter.line, isExtended: !isWordIn(text), raw: text };
      }
    } else if (!extendedAlone) {
      const text = cutter.text;
      if (!isComment(text)) {
        yield { text: packed(text.slice(0, -1)), line: cutter.line, isExtended: false, raw: text };
      }
    }
  }
}

// The commands of a Gerber file as the station cuts them: docs/formats.md, "The cutting of a Gerber text".

const CR = 13, LF = 10, SPACE = 32, TAB = 9, PERCENT = 37, G = 71;
const SKIPPED = /[ \t\r\n]/g;
const COMMENT = /^G[ \t\r\n]*(?:0[ \t\r\n]*4|4(?![ \t\r\n]*\d))([^]*)$/;
const STANDARD = /^\s*#@!\s*(T[ADFO])([^]*)$/;
const PERCENT_SIGN = /%/g;
// Two letters and what stands behind them; a macro's text alone holds a star.
const EXTENDED = /^[ \t\r\n]*([A-Z])[ \t\r\n]*([A-Z])([^]*)\*[ \t\r\n]*$/;

/** The file is not one that a station loads, or its items are not those of the station. */
export class NotJoined extends Error {
  /**
   * @param {string} where
   * @param {string} why
   */
  constructor(where, why) {
    super(`${where}: ${why}`);
  }
}

/** @param {number} code */
function isSkipped(code) {
  return code === LF || code === SPACE || code === CR || code === TAB;
}

/**
 * A text without the bytes that do not count.
 * @param {string} text
 */
export function packed(text) {
  return text.replace(SKIPPED, "");
}

/**
 * What stands behind the `G04` of a comment; null where the word is none.
 * @param {string} word from its first letter on
 * @returns {string | null}
 */
export function commentOf(word) {
  if (word.charCodeAt(0) !== G) return null;
  const [, comment = null] = COMMENT.exec(word) ?? [];
  return comment;
}

/**
 * The attribute command of a comment, as programs write it where attributes are not to be commands: `G04 #@! TO.N,GND*`.
 * A `%`, which a command cannot hold, is written as its escape.
 * @param {string} comment
 * @returns {{name: string, text: string} | null}
 */
export function standardComment(comment) {
  const [, name, text] = STANDARD.exec(comment) ?? [];
  return name === undefined || text === undefined ? null : { name, text: text.replace(PERCENT_SIGN, "\\u0025") };
}

/** Goes from command to command. */
export class Commands {
  /** @param {string} source a character for each byte */
  constructor(source) {
    this.source = source;
    this.end = 0;
    /** Where the command begins. */
    this.at = 0;
    this.isExtended = false;
    /** What stands between the two `%`, or before the `*`. */
    this.text = "";
  }

  /**
   * Goes to the next command.
   * @returns {boolean} whether there is one
   */
  next() {
    const { source } = this;
    let at = this.end;
    while (isSkipped(source.charCodeAt(at))) at++;
    this.at = at;
    if (at >= source.length) return false;
    this.isExtended = source.charCodeAt(at) === PERCENT;
    const start = this.isExtended ? at + 1 : at;
    const end = source.indexOf(this.isExtended ? "%" : "*", start);
    if (end < 0) throw this.fault("the command has no end");
    this.text = source.slice(start, end);
    this.end = end + 1;
    return true;
  }

  /** The two letters of an extended command, and what stands behind them up to its last `*`. */
  extended() {
    const [, first = "", second = "", text] = EXTENDED.exec(this.text) ?? [], name = first + second;
    if (text === undefined) throw this.fault("no extended command");
    if (name !== "AM" && text.includes("*")) throw this.fault("several commands between two %");
    return { name, text };
  }

  /** @param {string} why */
  fault(why) {
    return new NotJoined(`byte ${this.at}`, `${why}: ${this.source.slice(this.at, this.at + 40)}`);
  }
}

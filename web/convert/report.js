/**
 * What a converter says of its work: the changes that it made, what it refuses, and both as lines of text. Nothing here
 * reads or writes a file, so that a page and a command share it.
 *
 * @typedef {{line: number, what: string, rounded?: string}} Change  what was changed on a line of the file, counted
 *   from 1, and, where a length or a place was rounded, which
 * @typedef {{line?: number, place?: string, what: string}} Refusal  what cannot be written, and its line, or another
 *   place, as `form`
 */

/** How many refusals are printed one by one. */
const MOST_TOLD = 20;

/** Thrown where a command of a file cannot be written: the text says what it is and what to do about it. */
export class Unsaid extends Error {}

/** Thrown where the options or the whole file cannot be used: the text says which and why. */
export class Failure extends Error {}

/** Collects changes in order; the same change on one line is kept once. */
export class Changes {
  constructor() {
    /** @type {Change[]} */
    this.list = [];
    /** @type {Map<string, {line: number}>} the last one of each kind */
    this.lastOnes = new Map();
  }

  /**
   * @param {string} what
   * @param {number} line
   * @param {string} [rounded]
   */
  add(what, line, rounded) {
    const key = rounded === undefined ? what : `${what}\n${rounded}`;
    let last = this.lastOnes.get(key);
    if (last === undefined) {
      last = { line: 0 };
      this.lastOnes.set(key, last);
    }
    if (last.line !== line) {
      last.line = line;
      this.list.push(rounded === undefined ? { line, what } : { line, what, rounded });
    }
  }
}

/**
 * The changes as lines of text, one for each kind, in the order of their first lines: `lines 3 and 7: what it was`.
 * @param {Change[]} changes
 * @returns {string[]}
 */
export function toldChanges(changes) {
  /** @type {Map<string, number[]>} */
  const linesOf = new Map();
  for (const { line, what, rounded } of changes) {
    const text = rounded === undefined ? what : `${what}; rounded: ${rounded}`;
    const lines = linesOf.get(text);
    if (lines === undefined) {
      linesOf.set(text, [line]);
    } else if (lines[lines.length - 1] !== line) {
      lines.push(line);
    }
  }
  return [...linesOf].map(([text, lines]) => `${linesText(lines)}: ${text}`);
}

/**
 * `line 3`, `lines 3 and 7`, `lines 3 to 9`, `124 lines from 3 to 900`.
 * @param {number[]} lines  in order, not empty
 * @returns {string}
 */
function linesText(lines) {
  const [first = 0] = lines, last = lines.at(-1) ?? first;
  if (lines.length === 1) {
    return `line ${first}`;
  }
  if (last - first === lines.length - 1 && lines.length > 2) {
    return `lines ${first} to ${last}`;
  }
  if (lines.length > 6) {
    return `${lines.length} lines from ${first} to ${last}`;
  }
  return `lines ${lines.slice(0, -1).join(", ")} and ${last}`;
}

/**
 * A refusal as `line 7: what it is`.
 * @param {Refusal} refusal
 * @returns {string}
 */
export function refusalText({ line, place, what }) {
  return `${place ?? `line ${line}`}: ${what}`;
}

/**
 * The refusals as lines of text, each as `FILE: line 7: what it is`, the first 20 of them, and that nothing was
 * written.
 * @param {string} tool
 * @param {string} file
 * @param {Refusal[]} refusals
 * @returns {string[]}
 */
export function toldRefusals(tool, file, refusals) {
  const lines = refusals.slice(0, MOST_TOLD).map((refusal) => `${file}: ${refusalText(refusal)}`);
  if (refusals.length > MOST_TOLD) {
    lines.push(`${file}: and ${refusals.length - MOST_TOLD} more`);
  }
  return [...lines, `${tool}: nothing was written`];
}

// The lines of an outline, by the words of its items.

import { closedLines, linesOfItem } from "../nets/index.js";

/** @typedef {[number, number]} Pair a place in nm */

const CLEAR = / clear\b/;

/**
 * The closed lines of an outline; `isWhole` where it has nothing else: no open line, no clear item, no flash.
 * @param {Iterable<string>} items in the words that `insert` takes
 * @returns {{closed: Pair[][], isWhole: boolean}}
 */
export function outlineLines(items) {
  /** @type {Pair[][]} */
  const lines = [];
  let isWhole = true;
  for (const words of items) {
    const own = CLEAR.test(words) ? [] : linesOfItem(words);
    isWhole &&= own.length > 0;
    lines.push(...own);
  }
  const { closed, open } = closedLines(lines);
  return { closed, isWhole: isWhole && open === 0 };
}

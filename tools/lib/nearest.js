// The word that a mistyped one may stand for.

// How many letters are added, left out, changed, or changed in their order (each a step).
/** @param {string} one @param {string} other */
function steps(one, other) {
  /** @param {number[]} row @param {number} at */
  const stepsAt = (row, at) => row[at] ?? Infinity;
  /** @type {number[]} */
  let before = [], last = Array.from({ length: other.length + 1 }, (_, at) => at);
  for (let i = 1; i <= one.length; i++) {
    const row = [i];
    for (let j = 1; j <= other.length; j++) {
      const isSame = one[i - 1] === other[j - 1], isSwapped = i > 1 && j > 1 && one[i - 1] === other[j - 2] && one[i - 2] === other[j - 1];
      row[j] = Math.min(stepsAt(last, j) + 1, stepsAt(row, j - 1) + 1, stepsAt(last, j - 1) + (isSame ? 0 : 1),
        isSwapped ? stepsAt(before, j - 2) + 1 : Infinity);
    }
    [before, last] = [last, row];
  }
  return stepsAt(last, other.length);
}

/**
 * The nearest of some words, at most a third of its letters away.
 * @param {string} word
 * @param {string[]} words
 * @returns {string | null} null where none is near
 */
export function nearest(word, words) {
  /** @type {string | null} */
  let found = null;
  let least = Infinity;
  for (const other of words) {
    const far = steps(word, other);
    if (far < least && far <= Math.max(1, Math.floor(other.replace(/^-+/, "").length / 3))) [found, least] = [other, far];
  }
  return found;
}

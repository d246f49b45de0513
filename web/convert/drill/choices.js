// What a person says of a drill file that it does not say itself, as words.

/**
 * The digits before and behind the point.
 * @param {string} text as `2:4`
 * @returns {{whole: number, decimals: number} | null} null where it is none
 */
export function digitsOf(text) {
  const found = /^([1-6])[:.]([0-6])$/.exec(text);
  return found && { whole: Number(found[1]), decimals: Number(found[2]) };
}

/**
 * A tool's diameter, in the file's unit or with its own.
 * @param {string} word as `1=0.8mm`
 * @param {string} shown how it is named where something is told about it
 * @returns {{number: number, size: string, unit: string | null, shown: string} | null} null where it is none
 */
export function toolOf(word, shown) {
  const found = /^T?0*(\d{1,4})=(\d+\.?\d*|\.\d+)(mm|inch|in|mil)?$/.exec(word);
  if (!found) return null;
  const [, number, size = "", unit = null] = found;
  return { number: Number(number), size, unit, shown };
}

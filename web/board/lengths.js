// Lengths as people write them: with a unit, or a number alone in a unit that is agreed.

/** How many nm each unit has. */
const UNITS = new Map([["nm", 1], ["um", 1000], ["µm", 1000], ["mm", 1_000_000], ["mil", 25_400], ["in", 25_400_000],
  ["inch", 25_400_000]]);
const LENGTH = /^([-+]?(?:\d{1,10}(?:\.\d{0,9})?|\.\d{1,9}))([a-zµ]*)$/;

/** The units that a length may have, as help and refusals name them. */
export const UNIT_WORDS = [...UNITS.keys()].filter((unit) => unit !== "µm" && unit !== "in").join(", ");

/**
 * A length in whole nm, the nearest one.
 * @param {string} text as `0.2mm`, `8mil`, `200nm`, or a number alone
 * @param {string} unit of a number alone
 * @returns {number | null} null where it is none
 */
export function lengthOf(text, unit) {
  const [, number, given] = LENGTH.exec(text.replace("μ", "µ")) ?? [];
  const scale = UNITS.get(given || unit);
  return number === undefined || scale === undefined ? null : Math.round(Number(number) * scale);
}

/**
 * Whether a word that begins with a dash is a number, and no option.
 * @param {string} word
 */
export function isNumber(word) {
  return LENGTH.test(word.replace("μ", "µ"));
}

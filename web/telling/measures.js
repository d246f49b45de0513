// Lengths and places as people read them, in the unit that is shown.

/** @typedef {"mm" | "in" | "mil"} Unit */
/** @typedef {[x: number, y: number]} Pair a place in nm */

/**
 * A length in nm. One that is not exact, as that of a slanting track, was rounded, and its words say so.
 * @typedef {{nm: number, isExact: boolean}} Length
 */

/** No place of a board is so far from (0, 0) along an axis, in nm. */
export const BOARD = 1e9;

// The nm of a unit; the digits that a size and a place have at least, all of which a nm needs, and those of a length that is
// rounded.
/** @type {Record<Unit, {nm: number, size: number, place: number, most: number, rounded: number}>} */
const UNITS = {
  mm: { nm: 1e6, size: 2, place: 3, most: 6, rounded: 3 },
  in: { nm: 25.4e6, size: 3, place: 4, most: 8, rounded: 4 },
  mil: { nm: 25400, size: 1, place: 1, most: 5, rounded: 1 },
};

/** @param {number} nm @param {Unit} unit @param {number} least @param {number} most */
function digits(nm, unit, least, most) {
  const text = (nm / UNITS[unit].nm).toFixed(most);
  return most === least ? text : text.replace(new RegExp(`0{1,${most - least}}$`), "");
}

/**
 * A size, without its unit: `1.20`, or with all digits that it has, `0.2625`.
 * @param {number} nm
 * @param {Unit} unit
 */
export function sizeText(nm, unit) {
  return digits(nm, unit, UNITS[unit].size, UNITS[unit].most);
}

/**
 * A length, without its unit: `3.20`, or where it was rounded `about 1.414`.
 * @param {Length} length
 * @param {Unit} unit
 */
export function lengthText({ nm, isExact }, unit) {
  if (isExact) return sizeText(nm, unit);
  const { size, rounded } = UNITS[unit];
  return `about ${digits(nm, unit, Math.min(size, rounded), rounded)}`;
}

/**
 * A place, without its unit: `108.585, -125.730`.
 * @param {Pair} place
 * @param {Unit} unit
 */
export function placeText([x, y], unit) {
  const { place, most } = UNITS[unit];
  return `${digits(x, unit, place, most)}, ${digits(y, unit, place, most)}`;
}

/**
 * Two sizes: `1.00 by 1.20 mm`; `about` stands before both where one of them was rounded.
 * @param {Length} width
 * @param {Length} height
 * @param {Unit} unit
 */
export function sidesText(width, height, unit) {
  if (width.isExact && height.isExact) return `${sizeText(width.nm, unit)} by ${sizeText(height.nm, unit)} ${unit}`;
  /** @param {Length} length */
  const rounded = ({ nm }) => lengthText({ nm, isExact: false }, unit).slice("about ".length);
  return `about ${rounded(width)} by ${rounded(height)} ${unit}`;
}

/**
 * Where a box lies, without the unit: `from 1.000, 2.000 to 3.000, 4.000`.
 * @param {import("./paths.js").Box} box
 * @param {Unit} unit
 */
export function boxText({ left, low, right, high }, unit) {
  return `from ${placeText([Math.round(left), Math.round(low)], unit)} to ${placeText([Math.round(right), Math.round(high)], unit)}`;
}

/** @param {number} nm @returns {Length} */
export function exact(nm) {
  return { nm, isExact: true };
}

/**
 * @param {number} count
 * @param {string} word
 * @param {string} many
 */
export function counted(count, word, many = `${word}s`) {
  return `${count.toLocaleString("en")} ${count === 1 ? word : many}`;
}

// Lengths: nm inside, mm, inches or mils for people.

export const NM_PER_MM = 1e6;
// No point of a board is so far from (0, 0) along an axis, in nm.
export const BOARD = 1e9;
// On a light board a layer's colour that is lighter than the first becomes as light as the second, so that it stands out from it.
const LIGHTEST = 0.55, DARKENED = 0.28;

// The units that the page shows: the nm of one, the digits behind the point at least and at most, and the name in a choice. With
// the most digits no two nm are the same text.
/** @typedef {{ nm: number, least: number, most: number, label: string }} Unit */
/** @type {Unit} */
const MM = { nm: NM_PER_MM, least: 3, most: 6, label: "mm" };
/** @type {Record<string, Unit>} */
export const UNITS = {
  mm: MM,
  in: { nm: 25.4e6, least: 4, most: 8, label: "inch" },
  mil: { nm: 25400, least: 1, most: 5, label: "mil" },
};

// Of a unit that is none, which a browser may have kept, mm.
/** @param {string} unit */
const unitOf = (unit) => Object.hasOwn(UNITS, unit) && UNITS[unit] || MM;

// A length in a unit with its digits as far as they say something.
/** @param {number} nm @param {string} unit */
export function lengthText(nm, unit) {
  const { nm: one, least, most } = unitOf(unit);
  return (nm / one).toFixed(most).replace(new RegExp(`0{1,${most - least}}$`), "");
}

/** @param {number} nm */
export const mm = (nm) => lengthText(nm, "mm");

/** @param {number} x @param {number} y @param {string} unit */
export const point = (x, y, unit = "mm") => `${lengthText(x, unit)}, ${lengthText(y, unit)} ${unit}`;

// An area in the unit's squares, of mm².
/** @param {number} area @param {string} unit */
export function areaText(area, unit) {
  const { nm, least, most } = unitOf(unit);
  return `${(area * (NM_PER_MM / nm) ** 2).toFixed(unit === "in" ? most - 2 : least)} ${unit}²`;
}

// Words that end with one or two lengths in mm, as "rectangle 2 by 1 mm" does, in another unit.
/** @param {string} words @param {string} unit */
export function wordsIn(words, unit) {
  if (unit === "mm") return words;
  /** @param {string} text */
  const brief = (text) => lengthText(Math.round(Number(text) * NM_PER_MM), unit).replace(/\.?0+$/, "");
  return words.replace(/(?<![\w.-])(-?\d[\d.]*)(?:(, | by )(-?\d[\d.]*))? mm$/, (_, one, between, other) =>
    `${brief(one)}${between ? between + brief(other) : ""} ${unit}`);
}

/** @type {Record<string, number>} */
const TYPED = { mm: 1e6, nm: 1, um: 1e3, "µm": 1e3, "μm": 1e3, in: 25.4e6, inch: 25.4e6, mil: 25400 };

// What a person typed as a length in whole nm: of the unit, or with its own; null where it is none.
/** @param {string} text @param {string} unit @returns {number | null} */
export function lengthIn(text, unit) {
  const [, number = "", given] = /^\s*([-+]?\d*(?:[.,]\d*)?)\s*(mm|nm|um|µm|in|inch|mil|)\s*$/i.exec(text) ?? [];
  const one = given ? TYPED[given.toLowerCase()] : unitOf(unit).nm;
  if (one === undefined || !/\d/.test(number)) return null;
  const value = Math.round(Number(number.replace(",", ".")) * one);
  return Math.abs(value) <= 4e9 ? value : null;
}

/** @param {string} text */
export const lengthOf = (text) => lengthIn(text, "mm");

// What a person typed as a point, "x, y" or "x y": each of the unit or with its own; a unit behind both is that of both. Null
// where it is none on the board.
/** @param {string} text @param {string} unit @returns {Board.Point | null} */
export function pointIn(text, unit) {
  const length = "[-+]?(?:\\d+\\.?\\d*|\\.\\d+)", word = "\\s*([a-zµ]*)";
  const found = new RegExp(`^\\s*(${length})${word}(?:\\s*[,;]\\s*|\\s+)(${length})${word}\\s*$`, "i").exec(text);
  if (!found) return null;
  const [, first, ofFirst, second, ofSecond] = found;
  const x = lengthIn(`${first}${ofFirst || ofSecond}`, unit), y = lengthIn(`${second}${ofSecond}`, unit);
  return x !== null && y !== null && Math.abs(x) <= BOARD && Math.abs(y) <= BOARD ? { x, y } : null;
}

// A colour as it is seen on the board of the look: on a light one what is nearly white is darkened.
/** @param {string} colour @param {boolean} isLight */
export function seen(colour, isLight) {
  /** @param {number} at */
  const part = (at) => parseInt(colour.slice(at, at + 2), 16);
  const red = part(1), green = part(3), blue = part(5), luminance = (0.2126 * red + 0.7152 * green + 0.0722 * blue) / 255;
  if (!isLight || luminance <= LIGHTEST) return colour;
  return `#${[red, green, blue].map((value) => Math.round(value * DARKENED / luminance).toString(16).padStart(2, "0")).join("")}`;
}

/** @param {string} text */
export const wholeOf = (text) => /^\s*\d{1,10}\s*$/.test(text) ? Number(text) : null;

/** @param {number} count @param {string} word */
export const plural = (count, word) => `${count.toLocaleString("en")} ${word}${count === 1 ? "" : "s"}`;

// A text that is cut where it is long, with how long it is.
/** @param {string} text @param {number} most */
export const short = (text, most) => text.length <= most ? text : `${text.slice(0, most)} .. (${plural(text.length, "letter")})`;

/** @param {number} value @param {number} grid */
export const snapped = (value, grid) => Math.round(value / grid) * grid;

/** Which apertures camplot refuses, why, and what to do about each: docs/formats.md, "Apertures". */

import { compare, modulo, negate, rational, shown } from "../exact.js";
import { NEAREST, REGIONS, TURNS } from "./advice.js";
import { NoValue } from "./macros.js";
import { Placing } from "./placing.js";

/** @typedef {import("../exact.js").Rational} Rational */
/** @typedef {"mm" | "inch"} Unit */

const POLYGON_ADVICE = `choose round, square or long pads, or have them plotted as regions, ${NEAREST}`;
const SIZE_ADVICE = "choose sizes from 1 nm to 200 mm";
/** @type {Record<string, string>} */
const REFUSED = {
  5: `primitive 5, a polygon (EAGLE writes octagonal pads so): ${POLYGON_ADVICE}`,
  6: `primitive 6, a moire: have such targets drawn by lines and arcs, ${NEAREST}`,
  7: `primitive 7, a thermal: have thermals drawn, or left out of a region, ${NEAREST}`,
};
/** How many values a code has without the rotation, which may stand behind them; of an outline by its number of points. */
/** @type {Record<string, number>} */
const COUNTS = { 1: 4, 2: 6, 20: 6, 21: 5 };
/** Which of them are sizes. */
/** @type {Record<string, number[]>} */
const SIZES = { 1: [1], 2: [1], 20: [1], 21: [1, 2], 4: [] };
const MOST_NM = 200_000_000n;
const MOST_POINTS = 5000n;
const MOST_VALUE = rational(1_000_000n);

/**
 * Why camplot refuses an aperture, with what to do about it.
 * @param {object} aperture
 * @param {string} aperture.template
 * @param {import("./macros.js").Macro | null} aperture.macro
 * @param {import("../exact.js").Rational[] | null} aperture.sizes  null where a parameter is no number
 * @param {"mm" | "inch"} unit
 * @returns {string} nothing where it does not refuse it
 */
export function refusal({ template, macro, sizes }, unit) {
  if (sizes === null) {
    return "a parameter that is no number: write it in digits, with a point where one is needed";
  }
  if (template === "P") {
    return `a polygon: ${POLYGON_ADVICE}`;
  }
  return macro === null ? ofTemplate(template, sizes, unit) : ofMacro(macro, sizes, unit);
}

/** @param {string} template @param {Rational[]} sizes @param {Unit} unit */
function ofTemplate(template, sizes, unit) {
  const own = template === "C" ? 1 : 2;
  const least = template === "C" ? 0n : 1n;
  const lengths = sizes.map((size) => new Placing(unit).length(size));
  if (lengths.some((length, place) => length > MOST_NM || length < (place < own ? least : 0n))) {
    return `a size that camplot does not read: ${SIZE_ADVICE}`;
  }
  if (isOneSided(template, sizes)) {
    return `${template === "R" ? "a rectangle" : "an obround"} with one parameter: give it both sides, or give ` +
      "--nearest, which takes them as equal, as old plotters do";
  }
  if (sizes.length < own) {
    return "a template without its sizes: write them behind it";
  }
  return sizes.length > own + 1 ? `a rectangular hole: choose a round one, or none, ${NEAREST}` : "";
}

/**
 * Whether a rectangle or an obround has one side alone.
 * @param {string} template
 * @param {Rational[]} sizes
 */
export function isOneSided(template, sizes) {
  return (template === "R" || template === "O") && sizes.length === 1;
}

/** @param {import("./macros.js").Macro} macro @param {Rational[]} sizes @param {Unit} unit */
function ofMacro(macro, sizes, unit) {
  const part = macro.unreadable();
  if (part !== null) {
    return `camplot reads no ${part.slice(0, 40)}*, as its macro has it: ${REGIONS}`;
  }
  try {
    const told = macro.primitives(sizes).map((primitive) => ofPrimitive(primitive, unit)).filter((text) => text !== "");
    return told.find((text) => !text.includes(NEAREST)) ?? told[0] ?? "";
  } catch (error) {
    if (error instanceof NoValue) {
      return `an expression of its macro has no value: ${REGIONS}`;
    }
    throw error;
  }
}

/** @param {string} code @param {Rational[]} fields */
const countOf = (code, fields) => (code === "4" ? 2 * Number(fields[1]?.n ?? 0n) + 4 : COUNTS[code] ?? 0);

/** @param {import("./macros.js").Primitive} primitive @param {Unit} unit */
function ofPrimitive({ code, fields }, unit) {
  const refused = REFUSED[code];
  if (refused !== undefined) {
    return refused;
  }
  const wrong = wrongField(code, fields, unit);
  if (wrong !== "") {
    return wrong;
  }
  const turn = fields[countOf(code, fields)];
  if (turn === undefined || modulo(turn, 90n).n === 0n) {
    return "";
  }
  return `a rotation of ${shown(turn)} degrees: ${TURNS}`;
}

/**
 * What is wrong with a primitive but its rotation; nothing where all is well.
 * @param {string} code
 * @param {Rational[]} fields
 * @param {Unit} unit
 */
function wrongField(code, fields, unit) {
  const sizes = SIZES[code];
  if (sizes === undefined) {
    return `primitive ${code}, which is none of the standard: ${REGIONS}`;
  }
  const [exposure, count] = fields;
  if (code === "4" && (count === undefined || count.d !== 1n || count.n < 1n || count.n > MOST_POINTS)) {
    return `primitive 4 with a number of points that is not from 1 to 5000: ${REGIONS}`;
  }
  const least = countOf(code, fields);
  if (exposure === undefined || fields.length < least || fields.length > least + 1) {
    return `primitive ${code} with ${fields.length} values after its code: ${REGIONS}`;
  }
  if (exposure.d !== 1n || (exposure.n !== 0n && exposure.n !== 1n)) {
    return `primitive ${code} with an exposure that is neither 0 nor 1: ${REGIONS}`;
  }
  if (fields.some((value) => compare(value, MOST_VALUE) >= 0 || compare(negate(value), MOST_VALUE) >= 0)) {
    return `primitive ${code} with a value of 1000000 or more: ${REGIONS}`;
  }
  const placing = new Placing(unit);
  const isWell = fields.slice(1, least).every((value, place) => {
    const length = code === "4" && place === 0 ? 0n : placing.length(value);
    return length <= MOST_NM && length >= (sizes.includes(place + 1) ? 0n : -MOST_NM);
  });
  return isWell ? "" : `primitive ${code} with a size or a place that camplot does not read: ${SIZE_ADVICE}, ` +
    "and places to 200 mm from the centre";
}

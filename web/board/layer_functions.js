// What the layers of a board show: their names in a script, what people call them, their colours and their order; and
// how a file tells it by its attribute.

import { latin1, latin1Bytes, utf8 } from "../bytes/index.js";
import { functionWords } from "./layer_words.js";

/**
 * What a layer shows.
 * @typedef {object} LayerFunction
 * @property {string} name its name in a script, as `top-mask`
 * @property {string} label what people call it
 * @property {string} colour `#rrggbb`
 * @property {number} height where it lies, from the bottom of the pile to its top
 * @property {boolean} isShown whether it is shown at first
 */

/** @typedef {[name: string, label: string, colour: string, height: number, isShown: boolean]} Row */
/** @type {Row[]} */
const TABLE = [
  ["bottom-glue", "bottom glue", "#22eebb", 4, false],
  ["bottom-paste", "bottom paste", "#667766", 6, false],
  ["bottom-silk", "bottom silkscreen", "#d6b3e6", 8, true],
  ["bottom-mask", "bottom solder mask", "#1fa08b", 10, false],
  ["bottom", "bottom copper", "#3f7fe0", 12, true],
  ["top", "top copper", "#d8433b", 60, true],
  ["top-mask", "top solder mask", "#b45ad0", 62, false],
  ["top-paste", "top paste", "#448899", 64, false],
  ["top-glue", "top glue", "#22aa55", 66, false],
  ["top-silk", "top silkscreen", "#f2eda1", 68, true],
  ["drawing", "drawing", "#666699", 72, false],
  ["other", "other", "#ff8877", 74, false],
  ["outline", "outline", "#e8d14a", 80, true],
  ["nonplated", "holes without plating", "#7fd6e8", 84, true],
  ["plated", "plated holes", "#ffffff", 86, true],
  ["holes", "holes", "#ffffff", 88, true],
];
// They stay apart from one another and from those of the table, in both looks of the page.
const INNER_COLOURS = ["#dd7722", "#668822", "#ff6699", "#4444ff", "#bb2266", "#998877", "#22ee22", "#997788", "#995522", "#aa8822"];

/** @param {Row} row @returns {LayerFunction} */
function layerFunction([name, label, colour, height, isShown]) {
  return Object.freeze({ name, label, colour, height, isShown });
}

/**
 * The functions of a board but inner copper, by name.
 * @type {Map<string, LayerFunction>}
 */
export const PLAIN = new Map(TABLE.map((row) => [row[0], layerFunction(row)]));

/**
 * One of them.
 * @param {string} name
 * @returns {LayerFunction}
 */
export function plain(name) {
  return /** @type {LayerFunction} */ (PLAIN.get(name));
}

/**
 * Inner copper.
 * @param {number} number from 1 below the top; less counts as 1
 * @returns {LayerFunction}
 */
export function inner(number) {
  const place = Math.max(1, number);
  const colour = /** @type {string} */ (INNER_COLOURS[(place - 1) % INNER_COLOURS.length]);
  return layerFunction([`in${place}`, `inner copper ${place}`, colour, Math.max(13, 59 - place), false]);
}

/**
 * A function of the table with a label of its own.
 * @param {string} name
 * @param {string} label
 * @returns {LayerFunction}
 */
export function labelled(name, label) {
  return Object.freeze({ ...plain(name), label });
}

const ATTRIBUTE = /TF[ \t\r\n\v\f]*\.FileFunction[ \t\r\n\v\f]*,([^*\r\n]*)/;
/** @type {Record<string, string>} */
const SIDES = { Top: "top", Bot: "bottom" };
/** @type {Record<string, string>} */
const ON_A_SIDE = { Soldermask: "mask", Legend: "silk", Paste: "paste", Glue: "glue" };
/** @type {Record<string, string>} */
const HOLES = { Plated: "plated", NonPlated: "nonplated", MixedPlating: "holes" };
const DRAWINGS = ["Drillmap", "Component"];

/**
 * What a file says that it shows: `%TF.FileFunction,..*%` (Gerber Layer Format Specification, "File attributes"), also in
 * the comments `G04 #@! TF..*` and `; #@! TF..` that KiCad writes.
 * @param {Uint8Array} head the file's first bytes
 * @returns {string | null} as the file has it; null where it says nothing
 */
export function fileFunction(head) {
  const [, value] = ATTRIBUTE.exec(latin1(head)) ?? [];
  return value === undefined ? null : utf8(latin1Bytes(value)).trim();
}

/**
 * The fields of a file's function.
 * @param {string} value
 * @returns {string[]}
 */
export function functionFields(value) {
  return value.split(",").map((field) => field.trim());
}

/**
 * The layer that a file says it shows.
 * @param {Uint8Array} head the file's first bytes
 * @returns {LayerFunction | null} null where it says nothing
 */
export function byAttribute(head) {
  const value = fileFunction(head);
  return value === null ? null : byFunction(value);
}

/**
 * The layer of a value of the attribute.
 * @param {string} value its fields, with commas between them
 * @returns {LayerFunction}
 */
export function byFunction(value) {
  const fields = functionFields(value), [what = "", next = "", last] = fields;
  if (what === "Copper" && last !== undefined && /^L\d+$/.test(next)) {
    const side = own(SIDES, last);
    return side ? plain(side) : inner(Number(next.slice(1)) - 1);
  }
  const onSide = own(ON_A_SIDE, what), holes = own(HOLES, what);
  if (onSide) {
    const side = own(SIDES, next);
    return side ? plain(`${side}-${onSide}`) : labelled("other", functionWords(fields));
  }
  if (what === "Profile") return plain("outline");
  if (holes) return plain(holes);
  return labelled(what.endsWith("Drawing") || DRAWINGS.includes(what) ? "drawing" : "other", functionWords(fields));
}

/** @param {Record<string, string>} table @param {string} key */
function own(table, key) {
  return Object.hasOwn(table, key) ? table[key] : undefined;
}

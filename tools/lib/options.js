// The options of the tools. Each stands here once, so that it means the same in every tool that has it.

import { CHOICES } from "../../web/convert/index.js";
import { UNIT_WORDS } from "../../web/board/index.js";
import { FINISH_NAMES, MASK_NAMES } from "../../web/materials/index.js";
import { PROGRAM } from "./places.js";

/** The dots an inch of a window where nothing is said of its pixels. */
export const DPI = 1000;
/** An inch in nm, and so the most dots an inch. */
const INCH = 25_400_000;
const LONGEST_PITCH = 100_000_000, METRE = 1_000_000_000;

const SHARED = /** @type {const} */ ([
  { name: "--out", short: "-o", value: "PATH", help: "write there" },
  { name: "--replace", old: ["--force"], help: "replace what is there" },
  { name: "--json", help: "print JSON, for other programs, in place of lines" },
  { name: "--dpi", value: "N", isWhole: true, range: [1, INCH], help: "pixels an inch" },
  { name: "--pitch", value: "LENGTH", unit: "nm", range: [1, LONGEST_PITCH],
    help: "the side of a pixel: a length, in nm unless it has a unit" },
  { name: "--edits", value: "FILE", help: "lines of a script, which run on the layers" },
  { name: "--camplot", value: "PROGRAM", otherwise: PROGRAM,
    help: "the program that runs, in place of the one that is built or installed" },
]);

const OWN = /** @type {const} */ ([
  { name: "--page", value: "HTML", help: "the page without a board (camplot.html)" },
  { name: "--mask", value: "COLOUR", choices: MASK_NAMES, otherwise: MASK_NAMES[0], help: "the colour of the solder mask" },
  { name: "--finish", value: "METAL", choices: FINISH_NAMES, otherwise: FINISH_NAMES[0], help: "what bare copper is finished with" },
  { name: "--links", value: "DIR", help: "write the script into this folder, with links of plain names to the files" },
  { name: "--at", value: ["X", "Y"], unit: "nm", range: [-4 * METRE, 4 * METRE],
    help: "only items whose box holds this point: lengths, in nm unless they have a unit" },
  { name: "--only", value: "KIND", choices: ["flash", "draw", "arc", "region", "repeat", "hit", "rout"],
    help: "only items of this kind" },
  { name: "--apertures", help: "the apertures and blocks, or the tools, in place of the items" },
  { name: "--whole", help: "cut no region and no slot short" },
  { name: "--ipc", value: "FILE", help: "a netlist, IPC-D-356 or IPC-D-356A" },
  { name: "--shift", value: ["X", "Y"], unit: "nm", range: [-METRE, METRE],
    help: "what is added to the netlist's places: lengths, in nm unless they have a unit" },
  { name: "--rules", value: "FILE", help: "a file with the rules of a house" },
  { name: "--rule", value: "NAME=LENGTH", isList: true,
    help: "a rule of a house and its limit, in mm unless it has a unit" },
  { name: "--copper", help: "print copper's share of each layer, in all and by squares of 10 mm" },
  { name: "--may-touch", key: "mayTouch", value: "A,B", isList: true, help: "two nets that may touch" },
  { name: "--accept", value: "REASON", help: "accept what is found: it is written into the file of accepted findings" },
  { name: "--accepted", value: "FILE", help: "the file of accepted findings" },
  { name: "--role", value: "FILE=ROLE", isList: true, help: "what a file shows: top, bottom, in1 .., plated, nonplated, outline .." },
  { name: "--partial", help: "compare what is there, though copper or holes are missing" },
  { name: "--twice", help: "once more with the window moved by half a pixel, and once at half the pitch" },
  { name: "--gap", value: "LENGTH", unit: "mm", range: [1, METRE],
    help: "list where two nets are nearer than this: a length, in mm unless it has a unit" },
  { name: "--neck", value: "LENGTH", unit: "mm", range: [1, METRE],
    help: "list where copper is thinner than this: a length, in mm unless it has a unit" },
  { name: "--pictures", value: "DIR", help: "write a picture of each finding into this folder" },
  { name: "--html", value: "FILE", help: "write a page with what differs, and pictures of both sides, into this file" },
  { name: "--columns", value: "N", isWhole: true, range: [1, 1000], otherwise: 1, help: "how many boards stand side by side (1)" },
  { name: "--rows", value: "N", isWhole: true, range: [1, 1000], otherwise: 1, help: "how many boards stand one above another (1)" },
  { name: "--step", value: ["X", "Y"], unit: "mm", range: [0, METRE],
    help: "from a board to the next: lengths, in mm unless they have a unit" },
  { name: "--spacing", value: "LENGTH", unit: "mm", range: [0, METRE],
    help: "between the outlines of two boards: a length, in mm unless it has a unit" },
  { name: "--rail", value: "LENGTH", unit: "mm", range: [1, METRE],
    help: "a rail around the boards of this width: a length, in mm unless it has a unit" },
]);

/** @typedef {typeof SHARED[number] | typeof OWN[number]} Known an option that several tools may have */

/**
 * The option of a converter's choice.
 * @param {import("../../web/convert/index.js").Choice} choice
 * @returns {Calls.Option}
 */
function optionOf({ option, old, value, form, values, isList, help }) {
  return { name: option, help, ...(value === undefined ? {} : { value }), ...(old ? { old } : {}),
    ...(form === "one" ? { choices: values?.map(([word]) => word) ?? [] } : {}), ...(isList ? { isList } : {}) };
}

/** @type {Map<string, Calls.Option>} */
const TABLE = new Map([...SHARED, ...OWN, ...CHOICES.gerber.map(optionOf), ...CHOICES.drill.map(optionOf)]
  .map((option) => [option.name, option]));

/**
 * An option of the table.
 * @param {string} name
 */
export function optionCalled(name) {
  const known = TABLE.get(name);
  if (!known) throw new Error(`no option ${name}`);
  return known;
}

/**
 * An option of the table, with what a tool adds to its help.
 * @template {Known["name"]} N
 * @param {N} name
 * @param {string} [more] stands after its help
 * @returns {Extract<Known, {name: N}>}
 */
export function option(name, more = "") {
  const known = optionCalled(name);
  return /** @type {Extract<Known, {name: N}>} */ ({ ...known, help: `${known.help}${more}` });
}

/**
 * The options of a converter, by the kind of file.
 * @template {"gerber" | "drill"} K
 * @param {K} kind
 */
export function choicesOf(kind) {
  return CHOICES[kind].map(({ option: name }) => /** @type {Calls.OfConverter[K]} */ (optionCalled(name)));
}

/**
 * The values of an option in words.
 * @param {Calls.Option} found
 */
export function valuesOf({ value, choices }) {
  if (choices) return [choices.join("|")];
  return value === undefined ? [] : typeof value === "string" ? [value] : [...value];
}

/**
 * What an option's value is called in the result.
 * @param {Calls.Option} found
 */
export function keyOf({ name, key }) {
  return key ?? name.replace(/^-+/, "");
}

/** What a length may be, for help. */
export const LENGTHS = `A length is a number with its unit, as 0.2mm, 8mil or 200nm (${UNIT_WORDS}), or a number alone.`;

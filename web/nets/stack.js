// Which layers of a board are copper, from the top down, and which copper plated holes pass.

import { HEAD, fileFunction, functionFields } from "../board/index.js";

/**
 * @typedef {import("../board/index.js").Layer} Layer
 *
 * A copper layer.
 * @typedef {{layer: Layer, number: number}} Copper its number from 1 at the top
 *
 * The first and the last copper layer that holes pass, by their places in the stack from 0, and what told it.
 * @typedef {{from: number, to: number, why: string}} Span
 * @typedef {Span & {layer: Layer}} Drilled holes
 *
 * A layer that is no part of the stack.
 * @typedef {{layer: Layer, why: string}} LeftOut
 * @typedef {{copper: Copper[], holes: Drilled[], missing: number[], leftOut: LeftOut[]}} Stack `missing` has the numbers of copper
 *   that files name or count on, and that is not there
 */

/** Boards of more copper layers are not made; a greater number in a file is a slip. */
const MOST_COPPER = 64;
const INNER = /^in(\d+)$/;
const PLATED = ["Plated", "MixedPlating"];

/**
 * The fields of what a layer's file says of its function.
 * @param {Layer} layer
 * @returns {string[]}
 */
function fieldsOf(layer) {
  const value = fileFunction(layer.file.bytes.subarray(0, HEAD));
  return value === null ? [] : functionFields(value);
}

/**
 * The number that the file gives, else the one of its name; the bottom has none by its name.
 * @param {Layer} layer
 */
function numberOf(layer) {
  const [what, number = ""] = fieldsOf(layer);
  if (what === "Copper" && /^L\d+$/.test(number)) return Number(number.slice(1));
  const { name } = layer.layerFunction, inner = INNER.exec(name);
  if (inner) return Number(inner[1]) + 1;
  return name === "top" ? 1 : null;
}

/** @param {Layer} layer */
function isCopper({ layerFunction: { name } }) {
  return name === "top" || name === "bottom" || INNER.test(name);
}

/**
 * The copper from the top; of two layers of one number the second is left out.
 * @param {Layer[]} layers
 * @param {LeftOut[]} leftOut where they are added
 * @returns {Copper[]}
 */
function copperOf(layers, leftOut) {
  const told = layers.filter(isCopper).map((layer) => ({ layer, number: numberOf(layer) }));
  const most = told.reduce((found, { number }) => Math.max(found, number ?? 0), 1);
  const numbered = told.map(({ layer, number }) => ({ layer, number: number ?? most + 1 })).sort((one, other) => one.number - other.number);
  return numbered.filter(({ layer, number }, at) => {
    const before = numbered[at - 1];
    if (before?.number !== number) return true;
    leftOut.push({ layer, why: `it is copper ${number}, as ${before.layer.name} is` });
    return false;
  });
}

/**
 * The numbers of the copper from the top to the last that a file names, without those that are there.
 * @param {Layer[]} layers
 * @param {Copper[]} copper
 */
function missingOf(layers, copper) {
  const named = layers.flatMap((layer) => {
    const [what = "", first, last] = fieldsOf(layer);
    return PLATED.includes(what) ? [Number(first), Number(last)] : [];
  });
  const last = [...named, ...copper.map(({ number }) => number)].reduce((most, number) => Math.max(most, number || 0), 0);
  const present = new Set(copper.map(({ number }) => number));
  return Array.from({ length: Math.min(last, MOST_COPPER) }, (_, at) => at + 1).filter((number) => !present.has(number));
}

/**
 * The copper that holes pass, by the layers that their file names, else all.
 * @param {Layer} layer
 * @param {Copper[]} copper
 * @returns {Span | null} null where none of these is there
 */
function spanOf(layer, copper) {
  const [what = "", first, last] = fieldsOf(layer);
  const all = { from: 0, to: copper.length - 1 };
  if (!PLATED.includes(what)) return { ...all, why: "all copper, since its file names no layers" };
  const one = Number(first), other = Number(last), [low, high] = other < one ? [other, one] : [one, other];
  if (!(low >= 1)) return { ...all, why: "all copper, since its file names no layers" };
  const passed = copper.flatMap(({ number }, at) => (low <= number && number <= high ? [at] : [])), from = passed[0], to = passed.at(-1);
  if (from === undefined || to === undefined) return null;
  return { from, to, why: `copper ${low} to ${high}, by its attribute` };
}

/**
 * The stack of a board's layers. Layers of holes without plating join nothing; where nothing tells it, holes are taken as
 * plated.
 * @param {Layer[]} layers each with the first bytes of its file, at least
 * @returns {Stack}
 */
export function stackOf(layers) {
  /** @type {LeftOut[]} */
  const leftOut = [];
  /** @type {Drilled[]} */
  const holes = [];
  const copper = copperOf(layers, leftOut);
  for (const layer of layers.filter(({ layerFunction: { name } }) => name === "plated" || name === "holes")) {
    const span = spanOf(layer, copper);
    if (span) holes.push({ layer, ...span });
    else leftOut.push({ layer, why: "it passes none of the copper layers" });
  }
  return { copper, holes, missing: missingOf(layers, copper), leftOut };
}

const TOOL_ATTRIBUTE = /^;\s*#@!\s*(TA|TD)\.?([^,*]*),?(.*)$/;
const TOOL_TYPE = /^;TYPE=(PLATED|NON_PLATED)$/;

/**
 * The tools of a drill file that are not plated, by what stands before them in comments: the attributes of KiCad, as
 * `; #@! TA.AperFunction,NonPlated,NPTH,ComponentDrill`, and Altium's `;TYPE=NON_PLATED`.
 * @param {string} text the file
 * @returns {Set<number>}
 */
export function toolsWithoutPlating(text) {
  const tools = new Set();
  let isPlated = true;
  for (const line of text.split(/\r\n|\r|\n/)) {
    const attribute = TOOL_ATTRIBUTE.exec(line.trim()), tool = /^T0*(\d+).*C/.exec(line.trim()), type = TOOL_TYPE.exec(line.trim());
    if (type) isPlated = type[1] === "PLATED";
    else if (attribute?.[1] === "TD") isPlated = true;
    else if (attribute?.[2] === "AperFunction") isPlated = !/^\s*NonPlated/.test(attribute[3] ?? "");
    else if (tool && !isPlated) tools.add(Number(tool[1]));
    if (line.trim() === "%") break;
  }
  return tools;
}

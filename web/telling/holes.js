// The holes of a board by size: those of drill files, and of Gerber files that show holes.

import { functionWords } from "./functions.js";
import { itemOf } from "./paths.js";

/** @typedef {import("./layers.js").ToldLayer} ToldLayer */

/**
 * The holes of a size.
 * @typedef {object} HoleRow
 * @property {number} diameter of the tool, in nm
 * @property {boolean | null} isPlated null where nothing tells it
 * @property {number} holes how many are drilled
 * @property {number} slots how many are routed along a way
 * @property {string[]} functions what files say that they are for, each once
 */

/** @typedef {{number: number, isSlot: boolean, width: number, count: number}} Tally */

class Tallies {
  /** @param {ToldLayer} layer */
  constructor(layer) {
    this.layer = layer;
    /** @type {Map<number, Tally[]>} */
    this.blocks = new Map();
  }

  /** @param {string} words @param {string[]} objects @returns {Tally[]} */
  of(words, objects) {
    const item = itemOf(words);
    if (!item || !item.isDark) return [];
    if (item.repeat) {
      const { columns, rows } = item.repeat;
      return this.ofAll(objects).map((tally) => ({ ...tally, count: tally.count * columns * rows }));
    }
    const { kind, number, points, ways } = item, shape = number === null ? undefined : this.layer.shapes.get(number);
    if (number === null || !shape) return [];
    if (shape.kind === "block") return this.ofBlock(number);
    const isCircle = shape.kind === "circle" || shape.kind === "tool", isOblong = shape.kind === "obround" && kind === "flash";
    if (!shape.width || !shape.height || !(isCircle || isOblong)) return [];
    const [way] = ways, isMoved = kind === "rout" ? points.length > 1 : way !== undefined && (way.from[0] !== way.to[0] || way.from[1] !== way.to[1]);
    return [{ number, isSlot: isMoved || (isOblong && shape.width.nm !== shape.height.nm) || kind === "arc",
      width: Math.min(shape.width.nm, shape.height.nm), count: 1 }];
  }

  /** @param {readonly string[]} objects */
  ofAll(objects) {
    return joined(objects.flatMap((words) => this.of(words, [])));
  }

  /** @param {number} number @returns {Tally[]} */
  ofBlock(number) {
    const known = this.blocks.get(number);
    if (known) return known;
    this.blocks.set(number, []);
    const found = this.ofAll(this.layer.shapes.get(number)?.objects ?? []);
    this.blocks.set(number, found);
    return found;
  }
}

// Tallies of one number as one.
/** @param {Tally[]} tallies @returns {Tally[]} */
function joined(tallies) {
  /** @type {Map<string, Tally>} */
  const found = new Map();
  for (const tally of tallies) {
    const key = `${tally.number} ${tally.isSlot}`, known = found.get(key);
    if (known) known.count += tally.count;
    else found.set(key, { ...tally });
  }
  return [...found.values()];
}

/** @param {ToldLayer} layer @returns {Tally[]} */
function tallyOf(layer) {
  const tallies = new Tallies(layer);
  /** @type {Tally[]} */
  let found = [];
  for (const { words, objects } of layer.items) {
    found.push(...tallies.of(words, objects));
    if (found.length > 1000) found = joined(found);
  }
  return joined(found);
}

/**
 * The holes of a board by their diameter and plating, the smallest first.
 * @param {readonly ToldLayer[]} layers
 * @returns {HoleRow[]}
 */
export function holesOf(layers) {
  /** @type {Map<string, HoleRow>} */
  const rows = new Map();
  for (const layer of layers.filter(({ group, kind }) => group === "holes" || kind === "drill")) {
    for (const { number, isSlot, width, count } of tallyOf(layer)) {
      const isPlated = layer.isPlated(number), key = `${width} ${isPlated}`, words = functionWords(layer.ofAperture(number));
      /** @type {HoleRow} */
      const row = rows.get(key) ?? { diameter: width, isPlated, holes: 0, slots: 0, functions: [] };
      row[isSlot ? "slots" : "holes"] += count;
      if (words && !row.functions.includes(words)) row.functions.push(words);
      rows.set(key, row);
    }
  }
  const order = [true, false, null];
  return [...rows.values()].sort((one, other) => one.diameter - other.diameter || order.indexOf(one.isPlated) - order.indexOf(other.isPlated));
}

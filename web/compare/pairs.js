// Which layers of two boards belong together: by what they show, as their attributes, a job file or their names tell it.

import { latin1 } from "../bytes/index.js";
import { byFunction, fileFunction } from "../board/index.js";

/** @typedef {import("../board/index.js").Layer} Layer */
/** @typedef {import("../board/index.js").BoardFile} BoardFile */

/**
 * A layer of each board that belong together, and what told that.
 * @typedef {{first: Layer, second: Layer, by: string}} Pair
 *
 * @typedef {{pairs: Pair[], onlyFirst: Layer[], onlySecond: Layer[]}} Paired
 */

/** What told what a layer shows. */
const BY_JOB = "the job file";
/** Layers that show the same are one, whatever their files are called; of several the file's name decides. */
const BY_FUNCTION = "what they show", BY_NAME = "their names", BY_CONTENT = "equal files";

const JOB = /\.gbrjob$/i;
/** @type {(path: string) => string} */
const nameOf = (path) => path.replace(/^.*[\\/]/, "");

/** @param {unknown} value @returns {Record<string, unknown>} */
const fieldsOf = (value) => (typeof value === "object" && value !== null ? /** @type {Record<string, unknown>} */ (value) : {});

// What a job file says of files; nothing where it is none.
/** @param {Uint8Array} bytes @returns {unknown[]} */
function filesOfJob(bytes) {
  try {
    const { FilesAttributes: files } = fieldsOf(JSON.parse(new TextDecoder().decode(bytes)));
    return Array.isArray(files) ? files : [];
  } catch {
    return [];
  }
}

/**
 * What the job files among files say that others show (Gerber Job Format, "FilesAttributes").
 * @param {BoardFile[]} files with all their bytes
 * @returns {Map<string, string>} values of `.FileFunction`, by the names of files
 */
export function functionsOfJobs(files) {
  /** @type {Map<string, string>} */
  const found = new Map();
  for (const { name, bytes } of files.filter((file) => JOB.test(file.name))) {
    for (const entry of filesOfJob(bytes)) {
      const { Path: path, FileFunction: value } = fieldsOf(entry);
      if (typeof path === "string" && typeof value === "string" && nameOf(path) !== name) found.set(nameOf(path), value);
    }
  }
  return found;
}

/**
 * Gives layers whose files do not say what they show what job files say of them.
 * @param {Layer[]} layers
 * @param {Map<string, string>} functions
 */
export function tellByJobs(layers, functions) {
  for (const layer of layers) {
    const value = functions.get(layer.file.name);
    if (value === undefined || fileFunction(layer.file.bytes) !== null) continue;
    layer.layerFunction = byFunction(value);
    layer.toldBy = BY_JOB;
  }
}

// What a layer shows, whole: of holes with the layers that they reach, of what is told by its name alone the name.
/** @param {Layer} layer @param {Map<string, string>} functions */
function wholeFunction({ file, layerFunction }, functions) {
  return fileFunction(file.bytes) ?? functions.get(file.name) ?? layerFunction.label;
}

/** @type {(one: string, other: string) => number} how many letters both end with */
function commonEnd(one, other) {
  let count = 0;
  while (count < one.length && count < other.length && one[one.length - 1 - count] === other[other.length - 1 - count]) count++;
  return count;
}

/** The layers of two boards that have no other yet. */
class Unpaired {
  /** @param {Layer[]} first @param {Layer[]} second */
  constructor(first, second) {
    this.first = [...first];
    this.second = [...second];
    /** @type {Pair[]} */
    this.pairs = [];
  }

  /** @param {Layer} first @param {Layer} second @param {string} by */
  join(first, second, by) {
    this.pairs.push({ first, second, by });
    this.first = this.first.filter((layer) => layer !== first);
    this.second = this.second.filter((layer) => layer !== second);
  }

  /**
   * Joins layers of an equal key: where there are several of it, those first whose names have more of their end in common.
   * @param {(layer: Layer, isSecond: boolean) => string | null} keyOf null of a layer that has none
   * @param {string} by
   * @param {(first: Layer, second: Layer) => boolean} fits
   */
  byKey(keyOf, by, fits = () => true) {
    const keys = new Set(this.first.map((layer) => keyOf(layer, false)));
    for (const key of keys) {
      if (key === null) continue;
      const one = this.first.filter((layer) => keyOf(layer, false) === key), other = this.second.filter((layer) => keyOf(layer, true) === key);
      const likely = one.flatMap((first) => other.filter((second) => fits(first, second)).map((second) => ({ first, second,
        common: commonEnd(first.file.name, second.file.name), isSame: first.file.name === second.file.name })));
      likely.sort((a, b) => Number(b.isSame) - Number(a.isSame) || b.common - a.common);
      /** @type {Set<Layer>} */
      const taken = new Set();
      for (const { first, second } of likely) {
        if (taken.has(first) || taken.has(second)) continue;
        taken.add(first).add(second);
        this.join(first, second, by);
      }
    }
  }
}

/**
 * The layers of two boards in pairs. A layer and a drill file are none.
 * @param {Layer[]} first
 * @param {Layer[]} second
 * @param {[Map<string, string>, Map<string, string>]} functions of job files
 * @param {(layer: Layer) => string} [contentOf] a text that is equal for equal files
 * @returns {Paired}
 */
export function pairedLayers(first, second, functions, contentOf = ({ file }) => latin1(file.bytes)) {
  const unpaired = new Unpaired(first, second), of = (/** @type {boolean} */ isSecond) => functions[isSecond ? 1 : 0];
  const isTold = (/** @type {Layer} */ { layerFunction: { name } }) => name !== "other" && name !== "drawing";
  const shown = (/** @type {Layer} */ { kind, layerFunction: { name } }) => `${kind} ${name}`;
  unpaired.byKey((layer, isSecond) => `${shown(layer)} ${wholeFunction(layer, of(isSecond))}`, BY_FUNCTION);
  unpaired.byKey((layer) => `${shown(layer)} ${layer.file.name}`, BY_FUNCTION);
  unpaired.byKey((layer) => (isTold(layer) ? shown(layer) : null), BY_FUNCTION);
  // Empty layers are equal whatever they show.
  unpaired.byKey((layer) => `${layer.kind} ${contentOf(layer)}`, BY_CONTENT, (one, other) => !isTold(one) || !isTold(other));
  unpaired.byKey((layer) => `${layer.kind} ${layer.file.name}`, BY_NAME);
  const place = (/** @type {Pair} */ pair) => first.indexOf(pair.first);
  return { pairs: unpaired.pairs.sort((one, other) => place(one) - place(other)), onlyFirst: unpaired.first, onlySecond: unpaired.second };
}

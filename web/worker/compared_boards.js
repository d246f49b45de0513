// Two boards compared: their layers in pairs, what came of each pair, and the pictures of the places where they differ.

import { Compared, Difference, Owners, besides, changeWords, isSamePair, labelOfPair, outcomeOf, outcomeWords, pairedLayers, placeLine,
  windowOfPlace } from "../compare/index.js";
import { latin1 } from "../bytes/index.js";
import { windowAtPitch } from "../board/index.js";

/** @typedef {import("../board/index.js").PlotWindow} PlotWindow */
/** @typedef {import("../bytes/index.js").Picture} Picture */
/** @typedef {import("../board/index.js").Layer} Layer */
/** @typedef {import("../compare/index.js").PairFound} PairFound */
/** @typedef {import("./compared_side.js").Side} Side */
/** @typedef {import("./compared_side.js").SideLayer} SideLayer */
/**
 * @typedef {Omit<PairFound, "layers" | "bytes"> & {layers: [Layer, Layer], bytes: [Uint8Array, Uint8Array], sides: [SideLayer, SideLayer],
 *   by: string, owners: Owners | null}} Pair
 */

/**
 * What came of a pair, for people.
 * @typedef {object} PairRow
 * @property {string} title
 * @property {string[]} files their names
 * @property {string[]} names of the layers in their stations
 * @property {string} by what told that they belong together
 * @property {string} outcome
 * @property {boolean} isSame whether both make the same
 * @property {string} words
 * @property {string[]} besides what differs that is no copper, hole or ink
 * @property {number} places how many
 *
 * A place for people: its pixels are those of `window`, each EMPTY, BOTH, ONLY_A or ONLY_B.
 * @typedef {object} PlaceShown
 * @property {string} line
 * @property {string[]} changes in words
 * @property {number} more changes that are not among them
 * @property {import("../board/index.js").Box} box
 * @property {import("../board/index.js").Box[]} frames around what changed
 * @property {PlotWindow} window
 * @property {Uint8Array} pixels
 */

/** What a pixel of two pictures is. */
const EMPTY = 0, BOTH = 1, ONLY_A = 2, ONLY_B = 3;
/** So many changes of a place are told, and so many are framed. */
const MOST_CHANGES = 20, MOST_FRAMES = 200;

/** @param {Picture} first @param {Picture} second @returns {Uint8Array} */
function pixelsOf(first, second) {
  const { width, height, stride } = first, pixels = new Uint8Array(width * height);
  for (let row = 0, at = 0; row < height; row++) {
    for (let column = 0; column < width; column++, at++) {
      const byte = row * stride + (column >> 3), bit = 128 >> (column & 7);
      const inA = ((first.bits[byte] ?? 0) & bit) !== 0, inB = ((second.bits[byte] ?? 0) & bit) !== 0;
      pixels[at] = inA ? (inB ? BOTH : ONLY_A) : inB ? ONLY_B : EMPTY;
    }
  }
  return pixels;
}

/** @param {Uint8Array} one @param {Uint8Array} other */
const isEqual = (one, other) => one.length === other.length && one.every((byte, at) => byte === other[at]);

// The same window so many times closer, around its middle.
/** @param {PlotWindow} window @param {number} zoom @returns {PlotWindow} */
function closer({ x, y, pitch, width, height }, zoom) {
  const finer = Math.max(1, Math.round(pitch / zoom)), middle = (/** @type {number} */ low, /** @type {number} */ count) =>
    Math.round(low + count * pitch / 2 - count * finer / 2);
  return { x: middle(x, width), y: middle(y, height), pitch: finer, width, height };
}

export class ComparedBoards {
  /** @param {[Side, Side]} sides */
  constructor(sides) {
    this.sides = sides;
    /** @type {Map<Uint8Array, string>} */
    const contents = new Map();
    const contentOf = (/** @type {Layer} */ { file: { bytes } }) => {
      const known = contents.get(bytes) ?? latin1(bytes);
      contents.set(bytes, known);
      return known;
    };
    const [first, second] = sides, layersOf = (/** @type {Side} */ { layers }) => layers.map(({ layer }) => layer);
    const { pairs, ...rest } = pairedLayers(layersOf(first), layersOf(second), [first.functions, second.functions], contentOf);
    this.rest = rest;
    /** @type {Pair[]} */
    this.pairs = pairs.map(({ first: one, second: other, by }) => this.pairOf(by, one, other));
  }

  /** @param {string} by @param {Layer} first @param {Layer} second @returns {Pair} */
  pairOf(by, first, second) {
    const one = this.sides[0].layerOf(first), other = this.sides[1].layerOf(second);
    const refused = [one, other].flatMap(({ why }, at) => (why === null ? [] : [`${"AB"[at]}: ${why}`]));
    const isSameFile = !one.isEdited && !other.isEdited && isEqual(one.bytes, other.bytes);
    return { layers: [first, second], sides: [one, other], by, bytes: [one.bytes, other.bytes], refused, isSameFile, compared: null, window: null, owners: null };
  }

  /** @param {number} at */
  pair(at) {
    const pair = this.pairs[at];
    if (!pair) throw new Error("there is no such pair");
    return pair;
  }

  /** @param {Pair} pair @param {0 | 1} side */
  givenOf({ layers, bytes }, side) {
    const { name, kind } = layers[side];
    return { kind, text: this.sides[side].text(name), bytes: bytes[side] };
  }

  /**
   * Compares a pair: its items, and its pictures where items differ.
   * @param {number} at
   * @param {number} pitch of the pictures, in nm
   * @returns {PairRow}
   */
  compare(at, pitch) {
    const pair = this.pair(at), names = pair.layers.map(({ name }) => name);
    if (!pair.refused.length && !pair.isSameFile) {
      const compared = new Compared(this.givenOf(pair, 0), this.givenOf(pair, 1)), box = compared.changes.length ? compared.box() : null;
      pair.compared = compared;
      if (box) this.see(pair, compared, windowAtPitch(box, pitch));
    }
    const notes = pair.sides.flatMap((one, side) => one.notes.map((note) => `${"AB"[side]}: ${note}`));
    return { title: labelOfPair(pair), files: pair.layers.map(({ file }) => file.name), names, by: pair.by, outcome: outcomeOf(pair), isSame: isSamePair(pair),
      words: outcomeWords(pair), besides: [...notes, ...besides(pair)], places: pair.compared?.places.length ?? 0 };
  }

  /** @param {Pair} pair @param {Compared} compared @param {PlotWindow} window */
  see(pair, compared, window) {
    const [first, second] = this.pictures(pair, window);
    pair.window = window;
    compared.see(new Difference(first, second, window));
    // (the pictures are let go: those of places are made when they are looked at)
    compared.difference = null;
  }

  /** @param {Pair} pair @param {PlotWindow} window @returns {[Picture, Picture]} */
  pictures({ layers: [first, second] }, window) {
    return [this.sides[0].picture(first.name, window), this.sides[1].picture(second.name, window)];
  }

  /**
   * A place with its picture.
   * @param {Worker.ComparingAsked["place"]} asked
   * @returns {PlaceShown}
   */
  place({ pair: at, place: number, width, height, zoom = 1 }) {
    const pair = this.pair(at), { compared } = pair, place = compared?.places[number];
    if (!compared || !place) throw new Error("there is no such place");
    const owners = pair.owners ??= new Owners(pair);
    const window = closer(windowOfPlace(place.box, width, height), zoom), [first, second] = this.pictures(pair, window);
    const changes = place.owners.flatMap((owner) => compared.changes[owner] ?? []);
    const lines = changes.slice(0, MOST_CHANGES).map((change) => {
      const of = owners.words(change);
      return `${changeWords(change, compared)}${of && ` (${of})`}`;
    });
    return { line: placeLine(place), changes: lines, more: changes.length - lines.length, box: place.box,
      frames: changes.flatMap(({ boxes }) => boxes).slice(0, MOST_FRAMES), window, pixels: pixelsOf(first, second) };
  }
}

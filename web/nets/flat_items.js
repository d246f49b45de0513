// The items of a layer one by one, those of repeats and of flashed blocks too, where they lie.

import { headOf } from "../station/index.js";

/**
 * @typedef {[number, number]} Pair a place in nm
 *
 * An item by its words; the objects of a repeat stand in it.
 * @typedef {object} SaidItem
 * @property {string} words
 * @property {number} reach how far it reaches from its centre or its line, in nm
 * @property {Pair} sides half of the sides of its pad or its pen
 * @property {readonly Pair[]} offsets of a flash, places of its own aperture from its centre, the centre first if it is one
 * @property {SaidItem[]} objects
 *
 * The items of a layer, and the objects of its blocks, by their numbers.
 * @typedef {{items: SaidItem[], blocks: Map<number, SaidItem[]>}} SaidItems
 *
 * @typedef {object} FlatItem
 * @property {SaidItem} item
 * @property {readonly import("../attributes/index.js").Attribute[]} attributes
 * @property {string} place its own place in the layer, as `3`; of an object that of its repeat or flash
 * @property {string | null} copy which copy of a panel it belongs to, by the copy's place; null where it is in none
 * @property {(pair: Pair) => Pair} move where a place of it lies on the layer
 * @property {boolean} isDark
 */

/** No panel has more objects. */
const MOST = 5_000_000;

/** @param {Pair} pair @returns {Pair} */
const stay = (pair) => pair;

/**
 * How a flash of a block moves its objects: x is negated first in a mirror, then they are turned, then moved.
 * @param {string} words
 * @returns {(pair: Pair) => Pair}
 */
function moveOf(words) {
  const [, , left, low, turn = ""] = words.split(" "), x = Number(left), y = Number(low), quarters = Number(turn.slice(1)) / 90;
  return ([across, up]) => {
    /** @type {Pair} */
    let found = [turn[0] === "m" ? -across : across, up];
    for (let at = 0; at < quarters; at++) found = [-found[1], found[0]];
    return [found[0] + x, found[1] + y];
  };
}

class Flattening {
  /**
   * @param {SaidItems} said
   * @param {import("../attributes/index.js").Reading | null} reading
   */
  constructor({ blocks }, reading) {
    this.blocks = blocks;
    this.reading = reading;
    /** @type {FlatItem[]} */
    this.found = [];
  }

  /**
   * @param {SaidItem} item
   * @param {import("../attributes/index.js").Said | undefined} said
   * @param {Omit<FlatItem, "item" | "attributes">} at
   */
  add(item, said, at) {
    if (this.found.length >= MOST) return;
    const { kind, number } = headOf(item.words), isClear = / clear( |$)/.test(item.words);
    const isDark = at.isDark !== isClear, objects = kind === "flash" ? this.blocks.get(number ?? -1) : undefined;
    if (kind === "repeat") {
      this.repeat(item, said, at);
      return;
    }
    this.found.push({ item, attributes: said?.attributes ?? [], ...at, isDark });
    if (!objects) return;
    const own = moveOf(item.words), move = (/** @type {Pair} */ pair) => at.move(own(pair)), [x, y] = move([0, 0]);
    objects.forEach((object, number_) => this.add(object, this.reading?.blocks.get(number ?? -1)?.said[number_],
      { place: at.place, copy: `${x} ${y}`, move, isDark }));
  }

  /**
   * @param {SaidItem} item
   * @param {import("../attributes/index.js").Said | undefined} said
   * @param {Omit<FlatItem, "item" | "attributes">} at
   */
  repeat({ words, objects }, said, at) {
    const [columns = 0, rows = 0, stepX = 0, stepY = 0] = words.split(" ").slice(1).map(Number);
    for (let column = 0; column < columns; column++) {
      for (let row = 0; row < rows; row++) {
        const x = column * stepX, y = row * stepY;
        const move = (/** @type {Pair} */ [across, up]) => at.move([across + x, up + y]);
        objects.forEach((object, number) => this.add(object, said?.objects[number], { ...at, copy: `${x} ${y}`, move }));
      }
    }
  }
}

/**
 * All items in the order in which they are painted.
 * @param {SaidItems} said
 * @param {import("../attributes/index.js").Reading | null} [reading] what the file says of them
 * @returns {FlatItem[]}
 */
export function flatItems(said, reading = null) {
  const flattening = new Flattening(said, reading);
  said.items.forEach((item, place) => flattening.add(item, reading?.items[place],
    { place: String(place), copy: null, move: stay, isDark: true }));
  return flattening.found;
}

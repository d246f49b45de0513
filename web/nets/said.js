// What points and pads need of a layer, by what a station answers.

import { headOf, linesOf } from "../station/index.js";
import { boxFrom, entriesFrom } from "../board/index.js";
import { centresOf } from "./item_places.js";
import { flatItems } from "./flat_items.js";

/** @typedef {import("./flat_items.js").Pair} Pair */

/** So many items are read at once. */
const READ = 10_000;

/**
 * Half of the smaller side.
 * @param {number} width
 * @param {number} height
 */
const halfOf = (width, height) => Math.ceil(Math.min(width, height) / 2);

/**
 * Lines with those that stand below them after two blanks.
 * @param {string[]} lines
 * @returns {{words: string, below: string[]}[]}
 */
function nested(lines) {
  /** @type {{words: string, below: string[]}[]} */
  const found = [];
  for (const line of lines) {
    if (line.startsWith("  ")) found[found.length - 1]?.below.push(line.trim());
    else found.push({ words: line, below: [] });
  }
  return found;
}

/**
 * The items in order, each with the objects of a repeat.
 * @param {import("../station/index.js").Station} station
 * @param {string} name
 */
function* nestedItems(station, name) {
  for (let from = 0, isMore = true; isMore; from += READ) {
    const items = nested(linesOf(station, `items ${name} ${from} ${READ}`));
    yield* items;
    isMore = items.length === READ;
  }
}

/**
 * Places of a simple shape from its centre, the centre first.
 * @param {string} shape
 * @param {number} width
 * @param {number} height
 * @returns {Pair[]}
 */
function offsetsOf(shape, width, height) {
  const across = 0.45 * width, up = 0.45 * height, corner = shape === "rectangle" ? 1 : 0.7;
  const isLong = shape === "obround" && width !== height, x = isLong && width < height ? 0.3 * width : corner * across;
  const y = isLong && height < width ? 0.3 * height : corner * up;
  return [[0, 0], [across, 0], [-across, 0], [0, up], [0, -up], [x, y], [-x, y], [x, -y], [-x, -y]];
}

/**
 * Parts of the sides at which other shapes are tried, from the centre: a few, and more of one whose centre is none of it, since
 * each question looks through the layer.
 */
const FEW = [0, 0.35, -0.35], MANY = [0, 0.25, -0.25, 0.35, -0.35, 0.42, -0.42, 0.47, -0.47];

/**
 * What is known of an aperture.
 * @typedef {{reach: number, sides: Pair, offsets: Pair[]}} Known
 */
/** @type {Known} */
const NOTHING = { reach: 0, sides: [0, 0], offsets: [] };

/** The apertures of a layer: how far each reaches, and places of it. */
class Apertures {
  /**
   * @param {import("../station/index.js").Station} station
   * @param {string} name
   */
  constructor(station, name) {
    this.station = station;
    this.name = name;
    const lines = linesOf(station, `entries ${name}`), entries = entriesFrom(lines);
    /** @type {Map<number, Known>} those of simple shapes */
    this.known = new Map(entries.filter(({ shape, width, hasHole }) => (shape !== null || width > 0) && !hasHole)
      .map(({ number, shape, width, height }) => [number, { reach: halfOf(width, height), sides: /** @type {Pair} */ ([width / 2, height / 2]),
        offsets: offsetsOf(shape ?? "circle", width, height) }]));
    /** @type {Map<number, number>} how far those with holes reach */
    this.holed = new Map(entries.filter(({ hasHole }) => hasHole).map(({ number, width, height }) => [number, halfOf(width, height)]));
    /** @type {Map<number, string[]>} the words of the objects of blocks */
    this.blocks = new Map(nested(lines).flatMap(({ words, below }) => {
      const block = /^block (\d+)/.exec(words);
      return block ? [/** @type {[number, string[]]} */ ([Number(block[1]), below])] : [];
    }));
    /** @type {Map<string, Known>} of other shapes, by number and turn */
    this.asked = new Map();
  }

  /**
   * @param {string} words of an item
   * @param {number | null} place its place in the layer; null of an object in another item, which cannot be asked for
   * @returns {Known}
   */
  of(words, place) {
    const { kind, number } = headOf(words);
    if (number === null) return NOTHING;
    const known = this.known.get(number);
    if (known) return known;
    if (place === null) return { ...NOTHING, offsets: [[0, 0]] };
    // A block or a shape of primitives, or one with a hole, which is only flashed.
    const [, , x, y, turn] = words.split(" "), key = `${number} ${turn}`;
    if (kind !== "flash") return { ...NOTHING, reach: this.holed.get(number) ?? 0 };
    if (!this.asked.has(key)) this.asked.set(key, this.ask(number, Number(x), Number(y), place));
    return /** @type {Known} */ (this.asked.get(key));
  }

  /**
   * Which places a flash covers by itself: the topmost item there below the next place is it.
   * @param {number} number
   * @param {number} x
   * @param {number} y
   * @param {number} place
   * @returns {Known}
   */
  ask(number, x, y, place) {
    const { station, name } = this, box = boxFrom(linesOf(station, `box ${name} ${place}`)[0]);
    if (!box) return { ...NOTHING, reach: this.holed.get(number) ?? 0 };
    const width = Math.min(box.right - box.left, 2 * Math.max(box.right - x, x - box.left));
    const height = Math.min(box.high - box.low, 2 * Math.max(box.high - y, y - box.low));
    const covers = (/** @type {Pair} */ [across, up]) => Number(linesOf(station, `at ${name} ${x + across} ${y + up} ${place + 1}`)[0] ?? -1) === place;
    const parts = covers([0, 0]) ? FEW : MANY;
    const offsets = parts.flatMap((one) => parts.map((other) => /** @type {Pair} */ ([Math.round(one * width), Math.round(other * height)])))
      .sort((one, other) => Math.hypot(...one) - Math.hypot(...other)).filter(covers);
    return { reach: this.holed.get(number) ?? halfOf(box.right - box.left, box.high - box.low), offsets,
      sides: [Math.max(box.right - x, x - box.left), Math.max(box.high - y, y - box.low)] };
  }
}

/**
 * The items of a layer in order, and the objects of its blocks.
 * @param {import("../station/index.js").Station} station
 * @param {string} name
 * @returns {import("./flat_items.js").SaidItems}
 */
export function saidItems(station, name) {
  const apertures = new Apertures(station, name);
  const objectOf = (/** @type {string} */ words) => ({ words, ...apertures.of(words, null), objects: [] });
  const items = Array.from(nestedItems(station, name), ({ words, below }, place) => (
    { words, ...apertures.of(words, place), objects: below.map(objectOf) }));
  const blocks = new Map([...apertures.blocks].map(([number, objects]) => [number, objects.map(objectOf)]));
  return { items, blocks };
}

/**
 * The centres of pads and holes among such items: of flashes, hits, slots and of the boxes of regions.
 * @param {import("./flat_items.js").SaidItems} said
 * @returns {{x: number, y: number}[]}
 */
export function padsOf(said) {
  return flatItems(said).flatMap(({ item, move }) => centresOf(item.words).map(move)).map(([x, y]) => ({ x, y }));
}

/**
 * Where the copies of a panel lie, as far as repeats and blocks tell: by how much each is moved.
 * @param {import("./flat_items.js").SaidItems} said
 * @returns {Pair[]}
 */
export function copiesOf(said) {
  const copies = new Set(flatItems(said).flatMap(({ copy }) => (copy === null ? [] : [copy])));
  return [...copies].map((copy) => /** @type {Pair} */ (copy.split(" ").map(Number)));
}

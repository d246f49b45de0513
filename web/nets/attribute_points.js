// The points of nets that the Gerber files of copper name themselves, by the attributes .N and .P of their items.

import { named, plainText } from "../attributes/index.js";
import { Centres } from "./alignment.js";
import { itemOf } from "../board/index.js";
import { headOf } from "../station/index.js";
import { Clears } from "./clears.js";
import { flatItems } from "./flat_items.js";
import { placesOf } from "./item_places.js";
import { placeWords } from "./words.js";

/** Pads of these functions have no plated hole (Gerber Layer Format Specification, ".AperFunction"). */
const WITHOUT_HOLE = /^(?:SMDPad|BGAPad|ConnectorPad|HeatsinkPad|TestPad|CastellatedPad|FiducialPad|WasherPad|AntiPad)$/;

/** Pads of these have one. */
const WITH_HOLE = /^(?:ViaPad|ComponentPad)$/;

/**
 * A copper layer's items with what its file says of them.
 * @typedef {object} SaidLayer
 * @property {string} label what people call the layer
 * @property {import("./flat_items.js").SaidItems} items
 * @property {import("../attributes/index.js").Reading | null} reading
 */

/**
 * @typedef {import("./flat_items.js").FlatItem} FlatItem
 * @typedef {import("./flat_items.js").Pair} Pair
 * @typedef {import("./points.js").NetPoint} NetPoint
 * @typedef {NetPoint & {spots: {layer: number, x: number, y: number}[]}} FlashPoint a flash's point, which has places of its own
 *
 * What is known of an item's aperture and of the layer: the aperture's function, whether anything of the layer is cleared, and
 * which places are.
 * @typedef {{functionOf: string | undefined, hasClear: boolean, isCleared: (spot: Pair) => boolean}} Around
 */

/**
 * The net of an item.
 * @param {FlatItem["attributes"]} attributes
 * @param {boolean} isFlash
 * @returns {string | null | undefined} null for a pad without a net; undefined where the file says nothing of one, or of several
 */
function netOf(attributes, isFlash) {
  const [name, ...more] = named(attributes, ".N")?.fields ?? [];
  if (!name || more.length) return undefined;
  if (name !== "N/C") return plainText(name);
  return isFlash ? null : undefined;
}

/** @param {FlatItem["attributes"]} attributes */
function pinOf(attributes) {
  const [part, pin] = named(attributes, ".P")?.fields ?? [];
  return part === undefined || pin === undefined ? null : `${plainText(part)}-${plainText(pin)}`;
}

/**
 * Points by their places, those of flashes of one net at one place on several layers as one, where a plated hole may join them:
 * pads without plating stand for each layer by itself.
 */
class Collection {
  /** @param {Centres} unplated the centres of holes without plating */
  constructor(unplated) {
    this.unplated = unplated;
    /** @type {NetPoint[]} */
    this.points = [];
    /** @type {Map<string, FlashPoint>} */
    this.flashes = new Map();
  }

  /**
   * The points of an item: one of a flash, one from each end of a draw or an arc, and a few of a region; each tries the item's
   * own places in its order, until one is black.
   * @param {number} layer
   * @param {string} label
   * @param {FlatItem} flat
   * @param {Around} around
   */
  add(layer, label, { item, attributes, place, copy, move }, { functionOf, isCleared, hasClear }) {
    const { kind } = headOf(item.words), isFlash = kind === "flash", net = netOf(attributes, isFlash), begin = itemOf(item.words)?.points[0];
    if (net === undefined || !begin) return;
    const own = (/** @type {boolean} */ isDense) => placesOf(item, isDense).map(move).filter((spot) => !isCleared(spot));
    let spots = own(false);
    if (!spots.length && hasClear) spots = own(true);
    const pin = pinOf(attributes), source = `${label} ${place}`, middle = move(placesOf(item)[0] ?? begin);
    const pointOf = (/** @type {Pair[]} */ list) => {
      const [x, y] = isFlash ? move(begin) : list[0] ?? middle;
      return { net, name: pin ?? source, isPin: pin !== null, source, x, y, layers: [layer], isThrough: false, copy,
        spots: list.map(([across, up]) => ({ layer, x: across, y: up })), reach: hasClear ? 0 : item.reach };
    };
    if (isFlash) this.addFlash(pointOf(spots), layer, functionOf, pin);
    else if (kind === "region") this.points.push(...startsOf(spots).map((at) => pointOf([...spots.slice(at), ...spots.slice(0, at)])));
    else this.points.push(pointOf(spots), pointOf([...spots].reverse()));
  }

  /**
   * @param {FlashPoint} point
   * @param {number} layer
   * @param {string | undefined} functionOf
   * @param {string | null} pin
   */
  addFlash(point, layer, functionOf, pin) {
    const isUnplated = this.unplated.near(point.x, point.y) !== null;
    if (isUnplated || WITHOUT_HOLE.test(functionOf ?? "")) {
      this.points.push({ ...point, isBareAllowed: isUnplated && point.net === null });
      return;
    }
    point.isDrilled = WITH_HOLE.test(functionOf ?? "");
    const key = `${point.x} ${point.y} ${point.net ?? `N/C ${pin}`}`, known = this.flashes.get(key);
    if (!known) {
      this.flashes.set(key, point);
      this.points.push(point);
    } else if (!known.layers.includes(layer)) {
      known.layers.push(layer);
      known.isThrough = true;
      known.spots.push(...point.spots);
      known.source += `, ${point.source}`;
    }
  }
}

/** So many points a region has. */
const OF_REGION = 3;

/**
 * Which of a region's places each of its points tries first: some far from one another.
 * @param {Pair[]} spots
 */
function startsOf({ length }) {
  const starts = Array.from({ length: OF_REGION }, (_, at) => Math.floor(at * length / OF_REGION));
  return [...new Set(starts)];
}

/**
 * Points of several copies have nets of their own.
 * @param {NetPoint[]} points
 * @returns {NetPoint[]}
 */
function ofCopies(points) {
  const copies = new Set(points.map(({ copy }) => copy));
  if (copies.size < 2) return points;
  return points.map((point) => {
    if (!point.copy || point.net === null) return point;
    const [x = 0, y = 0] = point.copy.split(" ").map(Number);
    return { ...point, net: copyName(point.net, x, y) };
  });
}

/**
 * What a net of a copy of a panel is called.
 * @param {string} net
 * @param {number} x by how much the copy is moved
 * @param {number} y
 */
export function copyName(net, x, y) {
  return `${net} of the copy at ${placeWords({ x, y })}`;
}

/**
 * The points that attributes name: places of flashes, draws, arcs and regions that are copper by the item itself and not cleared
 * later, also of those in repeats and blocks.
 * @param {SaidLayer[]} layers of copper, from the top
 * @param {{x: number, y: number}[]} unplated the centres of holes without plating
 * @returns {import("./points.js").NetPoint[]}
 */
export function pointsOfAttributes(layers, unplated) {
  const collection = new Collection(new Centres(unplated));
  layers.forEach(({ label, items, reading }, layer) => {
    if (!reading) return;
    const flat = flatItems(items, reading), clears = new Clears(flat), hasClear = clears.count > 0;
    flat.forEach((one, order) => {
      if (!one.attributes.length || !one.isDark) return;
      const { number } = headOf(one.item.words), ofAperture = (number === null ? undefined : reading.apertures.get(number)) ?? [];
      const functionOf = named(ofAperture, ".AperFunction")?.fields[0];
      collection.add(layer, label, one, { functionOf, hasClear, isCleared: (spot) => clears.isCleared(order, spot) });
    });
  });
  return ofCopies(collection.points);
}

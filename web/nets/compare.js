// What differs between the copper of a board and the points of its nets: opens, shorts, points without copper, copper
// without a point.

import { elementAt } from "./lists.js";
import { throughDisc } from "./measures.js";
import { nearestParts, overlapOf } from "./nearest.js";
import { placed } from "./points.js";
import { Ways } from "./ways.js";

/** Of copper with points of many nets, how many of them get a place where they touch. */
const MOST_WAYS = 12;
/** How many opens and how many shorts get their places: each is a search over copper. */
export const MOST_FULL = 20;

/**
 * A place on the board.
 * @typedef {{layer: number, x: number, y: number}} Place layers by their places in the stack, lengths in nm
 *
 * A part of a net that is in several.
 * @typedef {{copper: number, points: import("./points.js").NetPoint[]}} Part `copper` is the number of the copper net
 *
 * What keeps a part from another: no hole at a point on both, a distance on one layer, or layers that lie over each other.
 * @typedef {object} Gap
 * @property {number} part which of the parts, and which other it is nearest to
 * @property {number} other
 * @property {"hole" | "copper" | "layers"} kind
 * @property {Place} from
 * @property {Place} to
 * @property {number} distance in nm, of the centres of two pixels; 0 where the parts lie over each other
 * @property {Place | null} over where the parts lie over each other on two layers, else null
 *
 * @typedef {{kind: "open", net: string, parts: Part[], gaps: Gap[]}} Open
 * @typedef {{kind: "short", nets: {net: string, points: import("./points.js").NetPoint[]}[],
 *   touching: {nets: [string, string], place: Place, width: number, measure: import("./measures.js").Measure | null}[]}} Short
 * @typedef {{kind: "bare", point: import("./points.js").NetPoint}} Bare a point without copper
 * @typedef {{kind: "loose", copper: number, place: Place, area: number}} Loose copper without a point, and its mm²
 */

/** @typedef {import("./points.js").NetPoint} NetPoint */
/** @typedef {import("./ways.js").Stretch} Stretch */

/** What is compared: nets of copper, their grid, and points. */
class Comparison {
  /** @param {import("./nets.js").Nets} nets @param {import("./grid.js").Grid} grid @param {NetPoint[]} points */
  constructor(nets, grid, points) {
    this.nets = nets;
    this.grid = grid;
    this.placed = points.filter(({ layers }) => layers.length).map((point) => placed(nets, grid, point));
    /**
     * Points by their net's name, each with the copper that it is on; a point without a net has a name of its own.
     * @type {Map<string, Map<number, NetPoint[]>>}
     */
    this.byName = new Map();
    /** @type {Map<number, Map<string, NetPoint[]>>} */
    this.byCopper = new Map();
    for (const { point, on } of this.placed) {
      if (!on.length) continue;
      const name = nameOf(point);
      for (const copper of new Set(on.map(({ net }) => net))) {
        add(this.byName, name, copper, point);
        add(this.byCopper, copper, name, point);
      }
    }
    this.stand = new Map(this.placed.map(({ point, on }) => [point, on]));
  }

  /**
   * The copper that a point lies on.
   * @param {NetPoint} point
   */
  onOf(point) {
    return this.stand.get(point) ?? [];
  }

  /** @param {import("./ways.js").Pixel} pixel @returns {Place} */
  place({ layer, column, row }) {
    return { layer, ...this.grid.placeOf(column, row) };
  }

  opens() {
    /** @type {Open[]} */
    const opens = [];
    for (const [net, coppers] of this.byName) {
      if (coppers.size < 2) continue;
      const parts = [...coppers].map(([copper, points]) => ({ copper, points }))
        .sort((one, other) => other.points.length - one.points.length || one.copper - other.copper);
      opens.push({ kind: "open", net, parts, gaps: opens.length < MOST_FULL ? this.gapsOf(parts) : [] });
    }
    return opens;
  }

  /**
   * Each part but the largest, and what keeps it from another.
   * @param {Part[]} parts
   * @returns {Gap[]}
   */
  gapsOf(parts) {
    const { nearest, largest } = nearestParts(this.nets, parts.map(({ copper }) => copper));
    return parts.flatMap(({ copper }, part) => {
      if (copper === largest) return [];
      const gap = this.holeGap(parts, part) ?? this.copperGap(parts, part, nearest.get(copper));
      return gap ? [gap] : [];
    });
  }

  /**
   * A point that a hole should join on two layers.
   * @param {Part[]} parts
   * @param {number} part
   * @returns {Gap | null}
   */
  holeGap(parts, part) {
    const { copper, points } = elementAt(parts, part);
    for (const point of points.filter(({ isThrough }) => isThrough)) {
      const on = this.onOf(point), here = on.find(({ net }) => net === copper), there = on.find(({ net }) => net !== copper);
      if (!here || !there) continue;
      const other = parts.findIndex((found) => found.copper === there.net);
      return { part, other, kind: "hole", from: this.place(here), to: this.place(there), distance: 0, over: null };
    }
    return null;
  }

  /**
   * @param {Part[]} parts
   * @param {number} part
   * @param {import("./nearest.js").Nearest | undefined} nearest
   * @returns {Gap | null}
   */
  copperGap(parts, part, nearest) {
    const { copper } = elementAt(parts, part);
    const isOther = (/** @type {Part} */ found, /** @type {number} */ at) => (nearest ? found.copper === nearest.net : at !== part);
    /** @type {{other: number, overlap: import("./nearest.js").Overlap} | null} */
    let best = null;
    for (const [other, found] of parts.entries()) {
      const overlap = isOther(found, other) ? overlapOf(this.nets, copper, found.copper) : null;
      if (overlap && !(best && best.overlap.side >= overlap.side)) best = { other, overlap };
    }
    const over = best && this.place({ layer: best.overlap.layers[0], column: best.overlap.at[0], row: best.overlap.at[1] });
    if (nearest) {
      const { layer, from, to, distance } = nearest, other = parts.findIndex((found) => found.copper === nearest.net);
      return { part, other, kind: "copper", from: this.place({ layer, column: from[0], row: from[1] }),
        to: this.place({ layer, column: to[0], row: to[1] }), distance: distance * this.grid.pitch, over };
    }
    if (!best || !over) return null;
    return { part, other: best.other, kind: "layers", from: over, to: { ...over, layer: best.overlap.layers[1] }, distance: 0, over };
  }

  shorts() {
    /** @type {Short[]} */
    const shorts = [];
    for (const [copper, names] of this.byCopper) {
      // Two pads without a net on one piece are none.
      const own = [...names].filter(([, points]) => points.some(({ net }) => net !== null));
      const isShort = own.length > 1 || (own.length === 1 && names.size > 1);
      if (!isShort) continue;
      const nets = [...names].map(([net, points]) => ({ net, points }));
      shorts.push({ kind: "short", nets, touching: shorts.length < MOST_FULL ? this.touching(copper, nets) : [] });
    }
    return shorts;
  }

  /**
   * Where each net touches those before it.
   * @param {number} copper
   * @param {Short["nets"]} nets
   */
  touching(copper, nets) {
    const ways = new Ways(this.nets, copper);
    /** @type {Short["touching"]} */
    const found = [];
    /** @type {Map<number, Stretch> | null} */
    let covered = null;
    /** @type {string[]} */
    let before = [];
    for (const { net, points } of nets.slice(0, MOST_WAYS)) {
      const stretches = points.flatMap((point) => this.onOf(point).filter((on) => on.net === copper))
        .map(({ layer, column, row }) => ways.stretchAt(layer, column, row));
      const tree = ways.tree(stretches);
      const place = covered && ways.narrowest(covered, tree);
      if (place) {
        found.push({ nets: [before.join(", "), net], place: this.place(place), width: place.width * this.grid.pitch,
          measure: place.disc ? this.grid.measureOf(throughDisc(place.disc, place.width)) : null });
      }
      covered = merged(covered, tree);
      before = [...before, net];
    }
    return found;
  }

  /** @returns {Bare[]} */
  bare() {
    return this.placed.filter(({ point, on }) => !on.length && !point.isBareAllowed).map(({ point }) => ({ kind: "bare", point }));
  }

  /** @returns {Loose[]} */
  loose() {
    const { areas } = this.nets.tallies(), size = (this.grid.pitch / 1e6) ** 2;
    /** @type {Map<number, import("./ways.js").Pixel>} */
    const firsts = new Map();
    this.nets.visit((net) => !this.byCopper.has(net), (layer, row, start, end, net) => {
      if (!firsts.has(net)) firsts.set(net, { layer, row, column: (start + end - 1) >> 1 });
    }, 0, this.nets.copper.length - 1);
    return [...firsts].map(([copper, first]) => ({ kind: "loose", copper, place: this.place(first),
      area: areas.reduce((sum, ofLayer) => sum + /** @type {number} */ (ofLayer[copper]), 0) * size }));
  }
}

/** @param {NetPoint} point */
function nameOf({ net, name, source }) {
  return net ?? `N/C ${name} (${source})`;
}

/**
 * @template K, L
 * @param {Map<K, Map<L, NetPoint[]>>} map
 * @param {K} key
 * @param {L} inner
 * @param {NetPoint} point
 */
function add(map, key, inner, point) {
  const lists = map.get(key), list = lists?.get(inner);
  if (list) list.push(point);
  else if (lists) lists.set(inner, [point]);
  else map.set(key, new Map([[inner, [point]]]));
}

/** @param {Map<number, Stretch> | null} one @param {Map<number, Stretch>} other */
function merged(one, other) {
  if (!one) return other;
  for (const [run, { low, high }] of other) {
    const known = one.get(run);
    one.set(run, known ? { low: Math.min(known.low, low), high: Math.max(known.high, high) } : { low, high });
  }
  return one;
}

/**
 * The names of the points on some nets of copper, without a comparison.
 * @param {import("./nets.js").Nets} nets
 * @param {import("./grid.js").Grid} grid
 * @param {import("./points.js").NetPoint[]} points
 * @param {Set<number>} wanted the nets
 * @returns {Map<number, string[]>}
 */
export function namesOf(nets, grid, points, wanted) {
  /** @type {Map<number, Set<string>>} */
  const names = new Map([...wanted].map((net) => [net, new Set()]));
  for (const point of points) {
    if (point.net === null || !point.layers.length) continue;
    for (const { net } of placed(nets, grid, point).on) names.get(net)?.add(point.net);
  }
  return new Map([...names].map(([net, found]) => [net, [...found]]));
}

/**
 * Whether nets on one piece of copper are no short, since all of them may touch.
 * @param {Short} short
 * @param {[string, string][]} mayTouch pairs of nets; capital and small letters are the same
 */
function isAllowed({ nets }, mayTouch) {
  if (nets.some(({ points }) => points.some(({ net }) => net === null))) return false;
  const names = nets.map(({ net }) => net.toUpperCase()), reached = new Set(names.slice(0, 1));
  // (a set is gone through to its end, also where that comes to be while it is)
  for (const name of reached) {
    for (const [first, second] of mayTouch) {
      const one = first.toUpperCase(), other = second.toUpperCase(), found = one === name ? other : other === name ? one : null;
      if (found !== null && names.includes(found)) reached.add(found);
    }
  }
  return reached.size === names.length;
}

/**
 * Compares the nets of copper with points.
 * @param {import("./nets.js").Nets} nets
 * @param {import("./grid.js").Grid} grid
 * @param {import("./points.js").NetPoint[]} points
 * @param {{apart?: import("./nets.js").Nets, mayTouch?: [string, string][]}} ties the nets without the items that tie two nets,
 *   in which shorts are looked for; and nets that may touch anywhere
 * @returns {{opens: Open[], shorts: Short[], bare: Bare[], loose: Loose[], names: Map<number, string[]>}} `names` has those
 *   of the points on each net of copper
 */
export function compareNets(nets, grid, points, { apart = nets, mayTouch = [] } = {}) {
  const comparison = new Comparison(nets, grid, points), untied = apart === nets ? comparison : new Comparison(apart, grid, points);
  const names = new Map([...comparison.byCopper].map(([copper, found]) => [copper, [...found.keys()]]));
  return { opens: comparison.opens(), shorts: untied.shorts().filter((short) => !isAllowed(short, mayTouch)), bare: comparison.bare(),
    loose: comparison.loose(), names };
}

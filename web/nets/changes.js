// What an edit joined and cut: the nets before it beside those after it.

import { BAND } from "./runs.js";
import { elementAt } from "./lists.js";
import { netsOf } from "./nets.js";
import { rowsOf, runsOfRows, without } from "./rows.js";

/**
 * Nets that became one, or one that became several, and a place where that came about; of many changes the first few have
 * a place.
 * @typedef {{nets: number[], place: {layer: number, column: number, row: number} | null}} Change a join has the nets before,
 *   a cut those after; a new net and one that went have their own number
 *
 * @typedef {object} Changes
 * @property {Change[]} joins
 * @property {Change[]} cuts
 * @property {Change[]} appeared copper that was white before, and joins nothing
 * @property {Change[]} vanished nets without a pixel now
 * @property {number} before how many nets there were
 * @property {number} after
 *
 * @typedef {import("./nets.js").Nets} Nets
 * @typedef {import("./runs.js").Band} Band
 *
 * A part of a net, and its runs: row, start and end of each.
 * @typedef {{layer: number, runs: [row: number, start: number, end: number][]}} Part
 */

/** The nets of the state on one side that share pixels with each net on the other. */
class Shared {
  /** @param {Nets} before @param {Nets} after */
  constructor(before, after) {
    this.before = before;
    this.after = after;
    this.afters = listsOf(before.count);
    this.befores = listsOf(after.count);
    /** @type {Set<number>} */
    this.seen = new Set();
    before.layers.forEach((_, layer) => this.addLayer(layer));
  }

  /** @param {number} layer */
  addLayer(layer) {
    const { before, after } = this, old = elementAt(before.layers, layer).bands, now = elementAt(after.layers, layer).bands;
    for (let at = 0; at < old.length; at++) {
      const oldBase = /** @type {number} */ (elementAt(before.bases, layer)[at]), nowBase = /** @type {number} */ (elementAt(after.bases, layer)[at]);
      const was = elementAt(old, at), is = elementAt(now, at);
      if (was === is) {
        for (let label = 0; label < was.count; label++) {
          this.add(/** @type {number} */ (before.netOf[oldBase + label]), /** @type {number} */ (after.netOf[nowBase + label]));
        }
      } else {
        this.addRows(was, oldBase, is, nowBase);
      }
    }
  }

  /** @param {Band} old @param {number} oldBase @param {Band} now @param {number} nowBase */
  addRows(old, oldBase, now, nowBase) {
    for (let row = 0; row < old.rows; row++) {
      let to = /** @type {number} */ (now.offsets[row]);
      const end = /** @type {number} */ (now.offsets[row + 1]);
      for (let at = /** @type {number} */ (old.offsets[row]); at < /** @type {number} */ (old.offsets[row + 1]); at++) {
        const oldStart = /** @type {number} */ (old.starts[at]), oldEnd = /** @type {number} */ (old.ends[at]);
        while (to < end && /** @type {number} */ (now.ends[to]) <= oldStart) to++;
        for (let shared = to; shared < end && /** @type {number} */ (now.starts[shared]) < oldEnd; shared++) {
          const one = oldBase + /** @type {number} */ (old.labels[at]), other = nowBase + /** @type {number} */ (now.labels[shared]);
          this.add(/** @type {number} */ (this.before.netOf[one]), /** @type {number} */ (this.after.netOf[other]));
        }
      }
    }
  }

  /** @param {number} one @param {number} other */
  add(one, other) {
    const known = this.afters[one], back = this.befores[other];
    // A hole through no copper is no net: its number follows those of the nets.
    if (!known || !back) return;
    // Neighbours mostly repeat what was seen last.
    if (known.length && known[known.length - 1] === other) return;
    const key = one * this.after.count + other;
    if (this.seen.has(key)) return;
    this.seen.add(key);
    known.push(other);
    back.push(one);
  }
}

/**
 * So many empty lists of nets.
 * @param {number} length
 * @returns {number[][]}
 */
function listsOf(length) {
  return Array.from({ length }, () => []);
}

/**
 * Rows of one net in a band.
 * @param {Nets} nets
 * @param {number} layer
 * @param {number} number of the band
 * @param {number} net
 */
function rowsOfNet(nets, layer, number, net) {
  const band = elementAt(elementAt(nets.layers, layer).bands, number), base = /** @type {number} */ (elementAt(nets.bases, layer)[number]);
  return Array.from({ length: band.rows }, (_, row) => {
    /** @type {import("./rows.js").Row} */
    const found = [];
    for (let at = /** @type {number} */ (band.offsets[row]); at < /** @type {number} */ (band.offsets[row + 1]); at++) {
      const own = nets.netOf[base + /** @type {number} */ (band.labels[at])];
      if (own === net) found.push(/** @type {number} */ (band.starts[at]), /** @type {number} */ (band.ends[at]));
    }
    return found;
  });
}

/**
 * The stretches of bands that differ, as the numbers of their first and last band.
 * @param {Band[]} one
 * @param {Band[]} other
 */
function stretchesOf(one, other) {
  /** @type {[first: number, last: number][]} */
  const stretches = [];
  one.forEach((band, at) => {
    if (band === other[at]) return;
    const last = stretches[stretches.length - 1];
    if (last && last[1] === at - 1) last[1] = at;
    else stretches.push([at, at]);
  });
  return stretches;
}

/**
 * The parts that a net has now and had not before.
 * @param {Nets} now
 * @param {Nets} old
 * @param {number} net
 */
function newParts(now, old, net) {
  return now.layers.flatMap(({ bands, width }, layer) => stretchesOf(bands, elementAt(old.layers, layer).bands).flatMap(([first, last]) => {
    const numbers = Array.from({ length: last - first + 1 }, (_, at) => first + at);
    const own = numbers.flatMap((number) => rowsOfNet(now, layer, number, net));
    const was = rowsOf(elementAt(old.layers, layer).bands.slice(first, last + 1));
    /** @type {Part[]} */
    const parts = [];
    const runs = runsOfRows(own.map((row, at) => without(row, elementAt(was, at))), width);
    netsOf([runs]).visit(() => true, (_, row, start, end, part) => {
      (parts[part] ??= { layer, runs: [] }).runs.push([first * BAND + row, start, end]);
    });
    return parts;
  }));
}

/**
 * Which of some nets a part touches in the state in which it is white: by an edge, or through a hole.
 * @param {Part} part
 * @param {Nets} nets
 * @param {Set<number>} wanted
 */
function touchedBy({ layer, runs }, nets, wanted) {
  /** @type {Set<number>} */
  const found = new Set();

  const look = (/** @type {number} */ at, /** @type {number} */ column, /** @type {number} */ row) => {
    const net = nets.netAt(at, column, row);
    if (wanted.has(net)) found.add(net);
  };
  const hole = nets.holes[layer - nets.copper.length];
  const passing = hole ? span(hole.from, hole.to)
    : nets.holes.flatMap(({ from, to }, at) => (from <= layer && layer <= to ? [nets.copper.length + at] : []));
  for (const [row, start, end] of runs) {
    look(layer, start - 1, row);
    look(layer, end, row);
    for (let column = start; column < end && found.size < wanted.size; column++) {
      look(layer, column, row - 1);
      look(layer, column, row + 1);
      for (const other of passing) look(other, column, row);
    }
  }
  return found;
}

/** @param {number} from @param {number} to */
function span(from, to) {
  return Array.from({ length: to - from + 1 }, (_, at) => from + at);
}

/**
 * Where a net became one of several: in the part of it that is new, and touches the most of these.
 * @param {Nets} now
 * @param {Nets} old
 * @param {number} net
 * @param {number[]} others
 */
function placeOf(now, old, net, others) {
  const wanted = new Set(others);
  /** @type {{touched: number, part: Part} | null} */
  let best = null;
  for (const part of newParts(now, old, net)) {
    const touched = touchedBy(part, old, wanted).size;
    if (!best || touched > best.touched) best = { touched, part };
  }
  return best && middleOf(best.part);
}

/** @param {Part} part */
function middleOf({ layer, runs }) {
  const [row, start, end] = elementAt(runs, runs.length >> 1);
  return { layer, row, column: (start + end - 1) >> 1 };
}

/**
 * A pixel of a net in a band that changed.
 * @param {Nets} nets
 * @param {Nets} others
 * @param {number} net
 */
function someOf(nets, others, net) {
  const [part] = newParts(nets, others, net);
  return part ? middleOf(part) : null;
}

/** How many changes of each kind get a place: each is a search in all that the edit touched. */
const MOST_PLACES = 12;

/**
 * What differs between two states of the same layers in the same window. What did not change is the same bands in both.
 * @param {import("./nets.js").Nets} before
 * @param {import("./nets.js").Nets} after
 * @returns {Changes}
 */
export function changesOf(before, after) {
  const { afters, befores } = new Shared(before, after);
  /** @type {Pick<Changes, "joins" | "cuts" | "appeared" | "vanished">} */
  const { joins, cuts, appeared, vanished } = { joins: [], cuts: [], appeared: [], vanished: [] };
  const add = (/** @type {Change[]} */ list, /** @type {number[]} */ nets, /** @type {() => Change["place"]} */ find) => (
    list.push({ nets, place: list.length < MOST_PLACES ? find() : null }));
  befores.forEach((nets, net) => {
    if (nets.length > 1) add(joins, nets, () => placeOf(after, before, net, nets));
    if (!nets.length) add(appeared, [net], () => someOf(after, before, net));
  });
  afters.forEach((nets, net) => {
    if (nets.length > 1) add(cuts, nets, () => placeOf(before, after, net, nets));
    if (!nets.length) add(vanished, [net], () => someOf(before, after, net));
  });
  return { joins, cuts, appeared, vanished, before: before.count, after: after.count };
}

// Where the copper of two nets lies nearer than a gap, on one layer.

import { elementAt } from "./lists.js";
import { BAND } from "./runs.js";
import { atOnce } from "./steps.js";

/**
 * A place where two nets are near: the white between two pixels, in pixels; the true gap is at most a pixel's diagonal
 * wider or narrower.
 * @typedef {{layer: number, nets: [number, number], from: [number, number], to: [number, number], distance: number}} Near
 *
 * A place while rows are looked at: its box, and the nearest of it.
 * @typedef {{left: number, right: number, bottom: number, best: Near}} Open
 *
 * A row of a layer: its band, the number of the band's first piece, and its runs from `first` to before `end`.
 * @typedef {{band: import("./runs.js").Band, base: number, first: number, end: number}} RowOf
 */

/** The places of one layer, those of a pair of nets that follow one another as one, with the nearest of each. */
class Places {
  /** @param {number} layer @param {number} reach */
  constructor(layer, reach) {
    this.layer = layer;
    this.reach = reach;
    /** @type {Map<string, Open[]>} */
    this.open = new Map();
    /** @type {Open[]} */
    this.closed = [];
  }

  /**
   * @param {number} one
   * @param {number} other
   * @param {[number, number]} from
   * @param {[number, number]} to
   * @param {number} distance
   */
  add(one, other, from, to, distance) {
    const key = one < other ? `${one} ${other}` : `${other} ${one}`;
    let list = this.open.get(key);
    if (!list) this.open.set(key, list = []);
    const [column, row] = to, { reach } = this;
    const known = list.find(({ left, right, bottom }) => column >= left - reach && column <= right + reach && row <= bottom + reach);
    const place = known ?? { left: column, right: column, bottom: row, best: this.near(one, other, from, to, distance) };
    if (!known) {
      list.push(place);
      this.closed.push(place);
    }
    place.left = Math.min(place.left, column);
    place.right = Math.max(place.right, column);
    place.bottom = Math.max(place.bottom, row);
    if (place.best.distance > distance) place.best = this.near(one, other, from, to, distance);
  }

  /**
   * @param {number} one
   * @param {number} other
   * @param {[number, number]} from
   * @param {[number, number]} to
   * @param {number} distance
   * @returns {Near}
   */
  near(one, other, from, to, distance) {
    return { layer: this.layer, nets: one < other ? [one, other] : [other, one], from, to, distance };
  }
}

/** The rows of a layer with the nets of their runs. */
class Rows {
  /** @param {import("./nets.js").Nets} nets @param {number} layer */
  constructor(nets, layer) {
    const { bands, height } = elementAt(nets.copper, layer);
    this.bands = bands;
    this.height = height;
    this.bases = elementAt(nets.bases, layer);
    this.netOf = nets.netOf;
  }

  /** @param {number} row @returns {RowOf} */
  at(row) {
    const number = Math.floor(row / BAND), band = elementAt(this.bands, number), inner = row % BAND;
    return { band, base: /** @type {number} */ (this.bases[number]), first: /** @type {number} */ (band.offsets[inner]),
      end: /** @type {number} */ (band.offsets[inner + 1]) };
  }

  /** @param {RowOf} row @param {number} run @returns {number} */
  net({ band, base }, run) {
    return /** @type {number} */ (this.netOf[base + /** @type {number} */ (band.labels[run])]);
  }
}

/**
 * The pairs of runs of a row and of one so far above it that are nearer than `gap`, all in pixels.
 * @param {Rows} rows
 * @param {number} row
 * @param {number} away
 * @param {number} gap
 * @param {Places} places
 */
function lookAbove(rows, row, away, gap, places) {
  const own = rows.at(row), other = away ? rows.at(row - away) : own, down = Math.max(0, away - 1);
  const across = Math.ceil(Math.sqrt(Math.max(0, gap * gap - down * down)));
  const { starts, ends } = own.band, above = other.band;
  let low = other.first;
  for (let at = own.first; at < own.end; at++) {
    const start = /** @type {number} */ (starts[at]), end = /** @type {number} */ (ends[at]);
    while (low < other.end && /** @type {number} */ (above.ends[low]) + across < start) low++;
    const net = rows.net(own, at);
    for (let run = away ? low : at + 1; run < other.end; run++) {
      const otherStart = /** @type {number} */ (above.starts[run]);
      if (otherStart > end + across) break;
      const otherNet = rows.net(other, run);
      if (otherNet === net) continue;
      const otherEnd = /** @type {number} */ (above.ends[run]), aside = Math.max(0, otherStart - end, start - otherEnd);
      const distance = Math.hypot(aside, down);
      if (distance >= gap) continue;
      const [here, there] = columnsOf(start, end, otherStart, otherEnd);
      places.add(net, otherNet, [there, row - away], [here, row], distance);
    }
  }
}

/**
 * Whether each row has the runs of the one above it.
 * @param {Rows} rows
 */
function sameRows(rows) {
  const found = new Uint8Array(rows.height);
  for (let row = 1; row < rows.height; row++) {
    const { band, first, end } = rows.at(row), above = rows.at(row - 1);
    let isSame = end - first === above.end - above.first;
    for (let at = first, other = above.first; at < end && isSame; at++, other++) {
      isSame = band.starts[at] === above.band.starts[other] && band.ends[at] === above.band.ends[other];
    }
    found[row] = isSame ? 1 : 0;
  }
  return found;
}

/**
 * The columns of two runs that are nearest to each other.
 * @param {number} start
 * @param {number} end
 * @param {number} otherStart
 * @param {number} otherEnd
 * @returns {[number, number]}
 */
function columnsOf(start, end, otherStart, otherEnd) {
  if (otherStart >= end) return [end - 1, otherStart];
  if (otherEnd <= start) return [start, otherEnd - 1];
  const column = (Math.max(start, otherStart) + Math.min(end, otherEnd) - 1) >> 1;
  return [column, column];
}

/**
 * The places of one layer where two nets lie nearer than a gap, in steps.
 * @param {import("./nets.js").Nets} nets
 * @param {number} gap in pixels
 * @param {number} layer
 * @returns {import("./steps.js").Steps<Near[]>}
 */
export function* nearSteps(nets, gap, layer) {
  const rows = new Rows(nets, layer), places = new Places(layer, 2 * Math.ceil(gap) + 2), isSame = sameRows(rows);
  for (let row = 0; row < rows.height; row++) {
    if (row % BAND === 0) yield;
    lookAbove(rows, row, 0, gap, places);
    // What is as near to a row as it is to one that is the same and lies between them is known from that one.
    const last = isSame[row] ? 0 : Math.min(row, Math.ceil(gap));
    for (let away = 1; away <= last; away++) if (!isSame[row - away + 1]) lookAbove(rows, row, away, gap, places);
  }
  return places.closed.map(({ best }) => best);
}

/**
 * The places where two nets lie nearer than a gap, nearest first.
 * @param {import("./nets.js").Nets} nets
 * @param {number} gap in pixels
 * @returns {Near[]}
 */
export function nearPlaces(nets, gap) {
  return nets.copper.flatMap((_, layer) => atOnce(nearSteps(nets, gap, layer))).sort((one, other) => one.distance - other.distance);
}

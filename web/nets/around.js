// What lies nearest to a hole: white, or the copper of some nets. A hole is a stroke: all places no farther than its radius from
// a line; that of a drilled one is a point.

import { elementAt } from "./lists.js";
import { BAND } from "./runs.js";
import { Widths } from "./widths.js";

/**
 * A stroke in pixels: a pixel's centre has its column and its row as coordinates.
 * @typedef {{x0: number, y0: number, x1: number, y1: number, radius: number}} Stroke
 *
 * The nearest pixel, and the distance of its centre from the stroke's rim, less than 0 inside.
 * @typedef {{column: number, row: number, distance: number}} Found
 */

/** By how much a pixel's centre is farther than the edge between it and the next one, on average. */
const HALF = 0.5;
const STEPS = 40;

/**
 * The distance of a place from a stroke's line.
 * @param {Stroke} stroke
 * @param {number} x
 * @param {number} y
 */
export function toLine({ x0, y0, x1, y1 }, x, y) {
  const dx = x1 - x0, dy = y1 - y0, square = dx * dx + dy * dy;
  const part = square ? Math.min(1, Math.max(0, ((x - x0) * dx + (y - y0) * dy) / square)) : 0;
  return Math.hypot(x - x0 - part * dx, y - y0 - part * dy);
}

/**
 * The column of a row that is nearest to a stroke's line.
 * @param {Stroke} stroke
 * @param {number} row
 */
function nearestColumn({ x0, y0, x1, y1 }, row) {
  if (y0 === y1) return (x0 + x1) / 2;
  const part = Math.min(1, Math.max(0, (row - y0) / (y1 - y0)));
  return x0 + (x1 - x0) * part;
}

/**
 * How far a stroke of another radius reaches from a column in its row, to one side.
 * @param {Stroke} stroke
 * @param {number} radius
 * @param {number} row
 * @param {number} column one inside
 * @param {1 | -1} side
 */
function edgeOf(stroke, radius, row, column, side) {
  const { x0, y0, x1, y1 } = stroke;
  if (x0 === x1 && y0 === y1) return column + side * Math.sqrt(Math.max(0, radius * radius - (row - y0) ** 2));
  let inside = column, outside = (side > 0 ? Math.max(x0, x1) : Math.min(x0, x1)) + side * (radius + 1);
  for (let step = 0; step < STEPS; step++) {
    const middle = (inside + outside) / 2;
    if (toLine(stroke, middle, row) <= radius) inside = middle;
    else outside = middle;
  }
  return inside;
}

/** What lies around strokes on one layer. */
export class Around {
  /**
   * @param {import("./nets.js").Nets} nets
   * @param {number} layer
   */
  constructor(nets, layer) {
    this.nets = nets;
    this.layer = layer;
    this.runs = elementAt(nets.copper, layer);
    this.widths = new Widths(this.runs);
  }

  /**
   * The nearest white pixel that is not well inside a stroke: how much copper stands around a hole.
   * @param {Stroke} stroke
   * @param {number} most only what is nearer to the rim is found
   * @returns {Found | null} its distance is that of the copper's edge
   */
  nearestWhite(stroke, most) {
    const { y0, y1, radius } = stroke, inner = radius - 1, low = Math.min(y0, y1), high = Math.max(y0, y1);
    /** @type {Found | null} */
    let found = null;
    let least = radius + most + HALF;
    const last = Math.ceil(high + least);
    for (let row = Math.floor(low - least); row <= last; row++) {
      if (Math.max(low - row, row - high) >= least) continue;
      const middle = nearestColumn(stroke, row), isIn = inner > 0 && toLine(stroke, middle, row) <= inner;
      for (const side of /** @type {(1 | -1)[]} */ ([-1, 1])) {
        const column = this.widths.whiteTo(row, isIn ? edgeOf(stroke, inner, row, middle, side) : middle, side);
        const away = toLine(stroke, column, row);
        if (away >= least) continue;
        least = away;
        found = { column, row, distance: away - radius - HALF };
      }
    }
    return found;
  }

  /**
   * The nearest copper of nets.
   * @param {Stroke} stroke
   * @param {number} most only what is nearer to the rim is found
   * @param {(net: number) => boolean} isWanted
   * @returns {(Found & {net: number}) | null}
   */
  nearestCopper(stroke, most, isWanted) {
    const { runs } = this, { netOf } = this.nets, bases = elementAt(this.nets.bases, this.layer), { x0, y0, x1, y1, radius } = stroke;
    let least = radius + most + HALF;
    const left = Math.min(x0, x1) - least, right = Math.max(x0, x1) + least, low = Math.min(y0, y1), high = Math.max(y0, y1);
    /** @type {(Found & {net: number}) | null} */
    let found = null;
    const last = Math.min(runs.height - 1, Math.ceil(high + least));
    for (let row = Math.max(0, Math.floor(low - least)); row <= last; row++) {
      if (Math.max(low - row, row - high) >= least) continue;
      const number = Math.floor(row / BAND), band = elementAt(runs.bands, number), base = /** @type {number} */ (bases[number]);
      const end = /** @type {number} */ (band.offsets[row % BAND + 1]);
      const middle = nearestColumn(stroke, row);
      for (let at = band.firstEndingAfter(row % BAND, Math.floor(left)); at < end; at++) {
        const ownStart = /** @type {number} */ (band.starts[at]), ownEnd = /** @type {number} */ (band.ends[at]);
        if (ownStart > right) break;
        const net = /** @type {number} */ (netOf[base + /** @type {number} */ (band.labels[at])]);
        if (!isWanted(net)) continue;
        const column = Math.min(Math.max(Math.round(middle), ownStart), ownEnd - 1), away = toLine(stroke, column, row);
        if (away >= least) continue;
        least = away;
        found = { column, row, net, distance: away - radius - HALF };
      }
    }
    return found;
  }
}

// Nets: which copper is one piece, and which pieces plated holes join.
//
// A piece is black pixels of one layer, each next to another by an edge. A hole is the same in the picture of plated holes;
// it joins all pieces, on the copper layers that it passes, in which one of its pixels is black. What hangs together so is a
// net.

import { elementAt } from "./lists.js";
import { BAND } from "./runs.js";
import { pairsBelow, pairsThrough } from "./touching.js";
import { Union } from "./union.js";

/**
 * Plated holes, and the copper layers that they pass.
 * @typedef {{runs: import("./runs.js").Runs, from: number, to: number}} Holes the first and the last such layer, both
 *   counted in the stack from the top, from 0
 */

/** The nets of a stack of copper. Nets are counted from 0, from the top layer down, and by rows in a layer. */
export class Nets {
  /**
   * @param {import("./runs.js").Runs[]} copper from the top down, all of the same sides
   * @param {Holes[]} holes
   */
  constructor(copper, holes) {
    this.copper = copper;
    this.holes = holes;
    this.layers = [...copper, ...holes.map(({ runs }) => runs)];
    // Pieces of bands are numbered through: those of band b of layer l begin at bases[l][b].
    /** @type {Int32Array[]} */
    this.bases = [];
    let size = 0;
    for (const { bands } of this.layers) {
      const bases = new Int32Array(bands.length + 1);
      bands.forEach(({ count }, at) => {
        bases[at] = size;
        size += count;
      });
      bases[bands.length] = size;
      this.bases.push(bases);
    }
    this.size = size;
    this.copperSize = this.bases[copper.length - 1]?.at(-1) ?? 0;
    const union = new Union(size);
    this.layers.forEach((_, layer) => this.joinBands(union, layer));
    /** The piece of each piece of a band; holes have numbers too, after those of copper. */
    this.pieceOf = union.numbered().numbers;
    /** How many pieces of copper there are. */
    this.pieces = countOf(this.pieceOf, this.copperSize);
    holes.forEach((_, at) => this.joinHoles(union, at));
    // A hole through no copper has a set of its own, whose number follows those of the nets.
    this.netOf = union.numbered().numbers;
    /** How many nets there are. */
    this.count = countOf(this.netOf, this.copperSize);
  }

  /** @param {Union} union @param {number} layer */
  joinBands(union, layer) {
    const { bands } = elementAt(this.layers, layer), bases = elementAt(this.bases, layer);
    for (let at = 1; at < bands.length; at++) {
      const pairs = pairsBelow(elementAt(bands, at - 1), elementAt(bands, at));
      joinPairs(union, pairs, /** @type {number} */ (bases[at - 1]), /** @type {number} */ (bases[at]));
    }
  }

  /** @param {Union} union @param {number} number */
  joinHoles(union, number) {
    const { runs, from, to } = elementAt(this.holes, number), bases = elementAt(this.bases, this.copper.length + number);
    for (let layer = from; layer <= to; layer++) {
      const ofLayer = elementAt(this.bases, layer);
      elementAt(this.copper, layer).bands.forEach((band, at) => {
        const drilled = elementAt(runs.bands, at);
        if (!drilled.count || !band.count) return;
        joinPairs(union, pairsThrough(drilled, band), /** @type {number} */ (bases[at]), /** @type {number} */ (ofLayer[at]));
      });
    }
  }

  /**
   * The net of a pixel of a layer; -1 where it is white or outside. Layers after those of copper are the holes.
   * @param {number} layer
   * @param {number} column
   * @param {number} row
   */
  netAt(layer, column, row) {
    const at = this.nodeAt(layer, column, row), net = at < 0 ? -1 : /** @type {number} */ (this.netOf[at]);
    return net < this.count ? net : -1;
  }

  /**
   * The piece of a pixel of copper; -1 where it is white or outside.
   * @param {number} layer
   * @param {number} column
   * @param {number} row
   */
  pieceAt(layer, column, row) {
    const at = this.nodeAt(layer, column, row);
    return at < 0 ? -1 : /** @type {number} */ (this.pieceOf[at]);
  }

  /** @param {number} layer @param {number} column @param {number} row */
  nodeAt(layer, column, row) {
    const { width, height, bands } = elementAt(this.layers, layer);
    if (column < 0 || row < 0 || column >= width || row >= height) return -1;
    const number = Math.floor(row / BAND), band = elementAt(bands, number), run = band.runAt(row % BAND, column);
    return run < 0 ? -1 : /** @type {number} */ (elementAt(this.bases, layer)[number]) + /** @type {number} */ (band.labels[run]);
  }

  /**
   * Visits the runs of nets, layer by layer from the top, and by rows from the top.
   * @param {(net: number) => boolean} isWanted
   * @param {(layer: number, row: number, start: number, end: number, net: number) => void} visit
   * @param {number} [first] the first layer
   * @param {number} [last] the last one; by default all, the holes too
   */
  visit(isWanted, visit, first = 0, last = this.layers.length - 1) {
    for (let layer = first; layer <= last; layer++) {
      elementAt(this.layers, layer).bands.forEach((band, number) => {
        const base = /** @type {number} */ (elementAt(this.bases, layer)[number]), nets = this.netOf.subarray(base, base + band.count);
        const wanted = Uint8Array.from(nets, (net) => (net < this.count && isWanted(net) ? 1 : 0));
        if (!wanted.includes(1)) return;
        for (let row = 0; row < band.rows; row++) {
          for (let at = /** @type {number} */ (band.offsets[row]), end = /** @type {number} */ (band.offsets[row + 1]); at < end; at++) {
            const label = /** @type {number} */ (band.labels[at]);
            if (!wanted[label]) continue;
            const start = /** @type {number} */ (band.starts[at]), stop = /** @type {number} */ (band.ends[at]);
            visit(layer, number * BAND + row, start, stop, /** @type {number} */ (nets[label]));
          }
        }
      });
    }
  }

  /**
   * What is to be known of each net: its pixels on each layer, and how many holes it has.
   * @returns {{areas: Float64Array[], holes: Int32Array}} `areas[layer][net]`
   */
  tallies() {
    const areas = this.copper.map(() => new Float64Array(this.count)), holes = new Int32Array(this.count);
    this.copper.forEach(({ bands }, layer) => {
      const bases = elementAt(this.bases, layer), ofLayer = elementAt(areas, layer);
      bands.forEach(({ areas: own }, number) => {
        const base = /** @type {number} */ (bases[number]);
        for (let at = 0; at < own.length; at++) ofLayer[/** @type {number} */ (this.netOf[base + at])] += /** @type {number} */ (own[at]);
      });
    });
    const seen = new Set();
    for (let at = this.copperSize; at < this.size; at++) {
      if (/** @type {number} */ (this.netOf[at]) >= this.count || seen.has(this.pieceOf[at])) continue;
      seen.add(this.pieceOf[at]);
      holes[/** @type {number} */ (this.netOf[at])]++;
    }
    return { areas, holes };
  }
}

/**
 * How many numbers, counted from 0, so many places of a list have.
 * @param {Int32Array} numbers
 * @param {number} size
 */
function countOf(numbers, size) {
  let count = 0;
  for (let at = 0; at < size; at++) count = Math.max(count, /** @type {number} */ (numbers[at]) + 1);
  return count;
}

/** @param {Union} union @param {Int32Array} pairs @param {number} firstBase @param {number} secondBase */
function joinPairs(union, pairs, firstBase, secondBase) {
  for (let at = 0; at < pairs.length; at += 2) {
    union.join(firstBase + /** @type {number} */ (pairs[at]), secondBase + /** @type {number} */ (pairs[at + 1]));
  }
}

/**
 * The nets of a stack of copper.
 * @param {import("./runs.js").Runs[]} copper
 * @param {Holes[]} [holes]
 * @returns {Nets}
 */
export function netsOf(copper, holes = []) {
  return new Nets(copper, holes);
}

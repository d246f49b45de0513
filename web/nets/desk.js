// The nets of a board that is edited: its pictures, what an edit changed in them, and what is asked of them.

import { changesOf } from "./changes.js";
import { namesOf } from "./compare.js";
import { Grid } from "./grid.js";
import { nearPlaces } from "./clearances.js";
import { elementAt } from "./lists.js";
import { netsOf } from "./nets.js";
import { BAND, bandOf, runsOf } from "./runs.js";

/**
 * A layer of the stack: `passes` of holes is the first and the last copper layer that they join.
 * @typedef {{name: string, passes: [number, number] | null}} DeskLayer
 *
 * What an edit joined or cut, with the names of its nets, as far as points tell them, and its place in nm.
 * @typedef {{nets: number[], names: string[], place: import("./compare.js").Place | null}} ChangeInWords
 * @typedef {Record<"joins" | "cuts" | "appeared" | "vanished", ChangeInWords[]> & {before: number, after: number}} ChangesInWords
 */

/** Pictures of copper and of holes in one window, and their nets. */
export class Desk {
  /**
   * @param {import("../board/index.js").PlotWindow} window
   * @param {DeskLayer[]} layers copper from the top, then holes
   */
  constructor(window, layers) {
    this.grid = new Grid(window);
    this.layers = layers;
    const { width, height } = window, stride = (width + 7) >> 3;
    this.pictures = layers.map(() => ({ width, height, stride, bits: new Uint8Array(stride * height) }));
    this.runs = this.pictures.map(runsOf);
    /** @type {import("./points.js").NetPoint[]} */
    this.points = [];
    this.nets = this.found();
    this.isSettled = false;
  }

  get copperCount() {
    return this.layers.filter(({ passes }) => !passes).length;
  }

  /**
   * Rows of a layer have changed: their runs are found again, of whole bands. The bits are in its picture already.
   * @param {number} layer
   * @param {number} first the first row
   * @param {number} last the last one
   */
  changed(layer, first, last) {
    const { stride, bits, width, height } = elementAt(this.pictures, layer), bands = [], from = Math.floor(first / BAND);
    for (let number = from; number <= Math.floor(last / BAND); number++) {
      bands.push(bandOf(bits, stride, width, number * BAND, Math.min(BAND, height - number * BAND)));
    }
    this.runs[layer] = elementAt(this.runs, layer).withBands(from, bands);
  }

  /**
   * Finds the nets as the pictures are now.
   * @returns {import("./changes.js").Changes | null} what is other than before; null at first
   */
  settle() {
    const before = this.isSettled ? this.nets : null;
    this.nets = this.found();
    this.isSettled = true;
    return before && changesOf(before, this.nets);
  }

  // The nets as the pictures are now.
  found() {
    const count = this.copperCount;
    return netsOf(this.runs.slice(0, count), this.layers.slice(count).flatMap(({ passes }, at) => (
      passes ? [{ runs: elementAt(this.runs, count + at), from: passes[0], to: passes[1] }] : [])));
  }

  /**
   * Points of the nets that the board should have.
   * @param {import("./points.js").NetPoint[]} points
   */
  compareWith(points) {
    this.points = points;
  }

  /**
   * The net at a place, on the first of some layers that is copper there; -1 where none is.
   * @param {number} x
   * @param {number} y
   * @param {number[]} [layers]
   */
  netAt(x, y, layers = this.layers.map((_, at) => at)) {
    const column = this.grid.columnOf(x), row = this.grid.rowOf(y);
    for (const layer of layers) {
      const net = this.nets.netAt(layer, column, row);
      if (net >= 0) return net;
    }
    return -1;
  }

  /**
   * All that hangs together with a place.
   * @param {number} net
   * @returns {{net: number, runs: Int32Array[], areas: number[], holes: number, names: string[], pins: string[]}} the runs of
   *   each layer as [row, start, end, row, ..]; areas in mm² of each copper layer
   */
  about(net) {
    const runs = this.layers.map(() => /** @type {number[]} */ ([])), { areas, holes } = this.nets.tallies();
    const size = (this.grid.pitch / 1e6) ** 2;
    this.nets.visit((found) => found === net, (layer, row, start, end) => elementAt(runs, layer).push(row, start, end));
    const names = this.namesOn([net]).get(net) ?? [];
    return { net, runs: runs.map((ofLayer) => Int32Array.from(ofLayer)), areas: areas.map((ofLayer) => /** @type {number} */ (ofLayer[net]) * size),
      holes: /** @type {number} */ (holes[net]), names, pins: this.pinsOn(net) };
  }

  /** @param {number} net */
  pinsOn(net) {
    const pins = this.points.filter(({ isPin, x, y, layers }) => isPin && this.netAt(x, y, layers) === net).map(({ name }) => name);
    return [...new Set(pins)];
  }

  /**
   * The nets nearer to one than a gap in nm, nearest first.
   * @param {number} net
   * @param {number} gap
   */
  nextTo(net, gap) {
    /** @type {Map<number, import("./clearances.js").Near>} */
    const nearest = new Map();
    for (const near of nearPlaces(this.nets, gap / this.grid.pitch)) {
      if (!near.nets.includes(net)) continue;
      const other = near.nets[0] === net ? near.nets[1] : near.nets[0];
      if (!nearest.has(other)) nearest.set(other, near);
    }
    const names = this.namesOn(nearest.keys());
    return [...nearest].map(([other, { layer, from, distance }]) => ({ net: other, distance: distance * this.grid.pitch,
      names: names.get(other) ?? [], place: this.placeOf(layer, from) }));
  }

  /**
   * @param {number} layer
   * @param {[column: number, row: number]} pixel
   * @returns {import("./compare.js").Place}
   */
  placeOf(layer, [column, row]) {
    return { layer, ...this.grid.placeOf(column, row) };
  }

  /**
   * Finds the nets anew, and what changed, with the places in nm and the names of nets, as far as points tell them.
   * @returns {ChangesInWords | null} null at first
   */
  settleInWords() {
    const { nets: old } = this, changes = this.settle();
    if (!changes) return null;
    const told = (/** @type {import("./changes.js").Change[]} */ list, /** @type {import("./nets.js").Nets} */ nets) => {
      const wanted = new Set(list.flatMap(({ nets: numbers }) => numbers));
      /** @type {Map<number, string[]>} */
      const names = wanted.size && this.points.length ? namesOf(nets, this.grid, this.points, wanted) : new Map();
      return list.map(({ nets: numbers, place }) => ({ nets: numbers,
        names: [...new Set(numbers.flatMap((net) => names.get(net) ?? []))],
        place: place && this.placeOf(place.layer, [place.column, place.row]) }));
    };
    return { joins: told(changes.joins, old), cuts: told(changes.cuts, this.nets), appeared: told(changes.appeared, this.nets),
      vanished: told(changes.vanished, old), before: changes.before, after: changes.after };
  }

  /**
   * The names of the points on nets.
   * @param {Iterable<number>} nets
   * @returns {Map<number, string[]>}
   */
  namesOn(nets) {
    return this.points.length ? namesOf(this.nets, this.grid, this.points, new Set(nets)) : new Map();
  }
}

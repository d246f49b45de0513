// Where the copper of one net is thinner than a width: what no disc of that width inside the copper covers, but corners.

import { BAND } from "./runs.js";
import { common, difference, flatRows, grown, runsOfFlat, shrunk } from "./discs.js";
import { elementAt } from "./lists.js";
import { netsOf } from "./nets.js";
import { atOnce } from "./steps.js";
import { Widths } from "./widths.js";

/**
 * A thin place, in pixels.
 * @typedef {import("./widths.js").Width & {layer: number, net: number}} Thinness
 */

/**
 * @template T
 * @typedef {import("./steps.js").Steps<T>} Steps
 */

/** Widths that differ by less, in pixels, are as narrow as one another. */
const SAME = 0.5;
/** So many places are measured in one step. */
const SOME_PLACES = 500;

/** A part that no disc covers: its box, and pixels of it in whose middle it is measured, [column, row, column, row ..]. */
class Part {
  /** @param {number} left @param {number} top */
  constructor(left, top) {
    this.left = this.right = left;
    this.top = this.bottom = top;
    /** @type {number[]} */
    this.pixels = [];
    /** @type {Set<number>} */
    this.contacts = new Set();
  }

  /** @param {number} row @param {number} start @param {number} end */
  take(row, start, end) {
    this.left = Math.min(this.left, start);
    this.right = Math.max(this.right, end);
    this.bottom = row;
  }
}

/**
 * The thin places of a layer: those parts that no disc covers that touch covered copper at two places or more, at none, or
 * reach farther from it than they are wide.
 */
class Thin {
  /** @param {import("./runs.js").Runs} runs @param {number} radius */
  constructor(runs, radius) {
    this.runs = runs;
    this.widths = new Widths(runs);
    this.rows = flatRows(runs);
    this.radius = radius;
    this.step = Math.ceil(radius / 2);
    // (nothing, until it is split)
    this.parts = this.contacts = netsOf([]);
  }

  /**
   * Finds what no disc covers, as `parts`, and where it touches copper that one covers.
   * @returns {Steps<void>}
   */
  * split() {
    const inner = shrunk(this.rows, this.radius);
    yield;
    const covering = grown(inner, this.radius);
    yield;
    const thin = difference(this.rows, covering), { width } = this.runs;
    yield;
    this.parts = netsOf([runsOfFlat(thin, width)]);
    yield;
    // Contacts: the covered copper next to a thin part, grown by a pixel, since corners of a stretch of it touch too.
    const near = common(grown(thin, 1), covering);
    yield;
    this.contacts = netsOf([runsOfFlat(grown(near, Math.SQRT2), width)]);
  }

  /** @returns {Steps<import("./widths.js").Width[]>} */
  * find() {
    yield* this.split();
    const found = [];
    for (const part of yield* this.partsFound()) {
      yield;
      const own = this.isNeck(part) ? yield* this.widthOf(part) : undefined;
      if (own) found.push(own);
    }
    return found;
  }

  /** @returns {Steps<Part[]>} */
  * partsFound() {
    /** @type {Part[]} */
    const found = [], { netOf, bases, copper } = this.parts, base = elementAt(bases, 0);
    for (const [number, band] of elementAt(copper, 0).bands.entries()) {
      yield;
      const first = /** @type {number} */ (base[number]);
      for (let inner = 0; inner < band.rows; inner++) {
        const row = number * BAND + inner, last = /** @type {number} */ (band.offsets[inner + 1]);
        for (let at = /** @type {number} */ (band.offsets[inner]); at < last; at++) {
          const start = /** @type {number} */ (band.starts[at]), end = /** @type {number} */ (band.ends[at]);
          const net = /** @type {number} */ (netOf[first + /** @type {number} */ (band.labels[at])]), part = found[net] ??= new Part(start, row);
          part.take(row, start, end);
          this.addPixels(part, row, start, end);
          for (const away of [-1, 0, 1]) this.addContacts(part.contacts, row + away, start - 1, end + 1);
        }
      }
    }
    return found;
  }

  /** @param {Set<number>} contacts @param {number} row @param {number} start @param {number} end */
  addContacts(contacts, row, start, end) {
    if (row < 0 || row >= this.runs.height) return;
    const band = elementAt(elementAt(this.contacts.copper, 0).bands, Math.floor(row / BAND)), inner = row % BAND;
    const last = /** @type {number} */ (band.offsets[inner + 1]);
    for (let at = band.firstEndingAfter(inner, Math.max(0, start)); at < last; at++) {
      const column = /** @type {number} */ (band.starts[at]);
      if (column >= end) break;
      contacts.add(this.contacts.netAt(0, column, row));
    }
  }

  /**
   * The copper is as wide at a pixel as at those next to it, but where a row of copper begins or ends next to it; of rows that
   * are alike a few are enough.
   * @param {Part} part
   * @param {number} row
   * @param {number} start
   * @param {number} end
   */
  addPixels({ pixels }, row, start, end) {
    /** @type {number[]} */
    const cuts = [];
    const { offsets, starts, ends } = this.rows;
    for (const other of [row - 1, row + 1]) {
      if (other < 0 || other >= this.runs.height) continue;
      const last = /** @type {number} */ (offsets[other + 1]);
      for (let at = this.firstEndingAfter(other, start); at < last; at++) {
        const otherStart = /** @type {number} */ (starts[at]), otherEnd = /** @type {number} */ (ends[at]);
        if (otherStart >= end) break;
        if (otherStart > start) cuts.push(otherStart);
        if (otherEnd < end) cuts.push(otherEnd);
      }
    }
    if (!cuts.length && row % this.step) return;
    pixels.push((start + end - 1) >> 1, row);
    cuts.sort((one, other) => one - other);
    let before = Infinity;
    for (const cut of cuts) {
      if (cut > before) pixels.push((before + cut - 1) >> 1, row);
      before = cut;
    }
  }

  /** @param {number} row @param {number} column */
  firstEndingAfter(row, column) {
    const { offsets, ends } = this.rows;
    let low = /** @type {number} */ (offsets[row]), high = /** @type {number} */ (offsets[row + 1]);
    while (low < high) {
      const middle = (low + high) >> 1;
      if (/** @type {number} */ (ends[middle]) > column) high = middle;
      else low = middle + 1;
    }
    return low;
  }

  /** @param {Part} part */
  isNeck({ left, right, top, bottom, contacts }) {
    return contacts.size !== 1 || Math.max(right - left, bottom + 1 - top) > 3 * this.radius + 2;
  }

  /**
   * The least width of a part; of one that ends in nothing, as a sharp tip does, the one in its middle.
   * @param {Part} part
   * @returns {Steps<import("./widths.js").Width | undefined>}
   */
  * widthOf({ pixels, contacts }) {
    const isLeast = contacts.size !== 1, widths = yield* measured(this.widths, pixels, isLeast);
    if (!isLeast) widths.sort((one, other) => one.width - other.width);
    return widths[widths.length >> 1];
  }
}

/**
 * The widths at some pixels, [column, row, column, row ..], in their order.
 * @param {Widths} widths
 * @param {number[]} pixels
 * @param {boolean} isLeast whether only those are wanted that are as narrow as the narrowest
 * @returns {Steps<import("./widths.js").Width[]>}
 */
function* measured(widths, pixels, isLeast) {
  /** @type {import("./widths.js").Width[]} */
  let found = [];
  let least = Infinity;
  for (let at = 0; at < pixels.length; at += 2) {
    if (at % (2 * SOME_PLACES) === 0) yield;
    const width = widths.at(/** @type {number} */ (pixels[at]), /** @type {number} */ (pixels[at + 1]), least + SAME);
    if (!width) continue;
    found.push(width);
    if (isLeast && width.width < least) {
      least = width.width;
      found = found.filter((known) => known.width < least + SAME);
    }
  }
  return found;
}

/**
 * Where copper is thinner than a width, thinnest first.
 * @param {import("./nets.js").Nets} nets
 * @param {number} width in pixels
 * @returns {Thinness[]}
 */
export function thinPlaces(nets, width) {
  return nets.copper.flatMap((_, layer) => atOnce(thinSteps(nets, width, layer))).sort((one, other) => one.width - other.width);
}

/**
 * Those of one layer in no order, in steps.
 * @param {import("./nets.js").Nets} nets
 * @param {number} width in pixels
 * @param {number} layer
 * @returns {Steps<Thinness[]>}
 */
export function* thinSteps(nets, width, layer) {
  // Where copper has this width, the white pixels' centres on both its sides are farther apart by two pixels at most.
  const found = yield* new Thin(elementAt(nets.copper, layer), width / 2 + 1).find();
  return found.filter((place) => place.width < width)
    .map((place) => ({ layer, net: nets.netAt(layer, place.column, place.row), ...place }));
}

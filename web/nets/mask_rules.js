// Rules of solder mask, ink and paste on the outer copper: narrow mask, copper that should be covered, ink on bare copper, paste
// on mask.

import { common, difference, flatRows, runsOfFlat } from "./discs.js";
import { elementAt } from "./lists.js";
import { inverse, webSteps } from "./mask_webs.js";
import { between, towards } from "./measures.js";
import { netsOf } from "./nets.js";
import { meetingSteps, ownersOf, piecesOf } from "./overlaps.js";

/** @typedef {import("./steps.js").Steps<import("./rules.js").Breach[]>} BreachSteps */

/** No overlap counts as deeper than this, in nm. */
const DEEPEST = 1_000_000;

/**
 * What lies on one outer copper layer.
 * @typedef {object} Side
 * @property {string} name `top` or `bottom`
 * @property {number} layer its copper, by its place in the stack
 * @property {import("./runs.js").Runs | null} openings black where the mask is open; null without such a file
 * @property {import("./runs.js").Runs | null} ink
 * @property {import("./runs.js").Runs | null} paste
 * @property {[number, number][][]} pads places of each pad of it in nm, its centre first
 */

/** What is checked of the outer layers. */
export class MaskCheck {
  /** @param {import("./rules.js").Checked} checked */
  constructor({ nets, grid, sides = [] }) {
    this.nets = nets;
    this.grid = grid;
    this.sides = sides;
    this.within = Math.ceil(grid.pitch * Math.SQRT2);
  }

  /** @returns {(Side & {openings: import("./runs.js").Runs})[]} those with a mask */
  get masked() {
    return this.sides.flatMap((side) => (side.openings ? [{ ...side, openings: side.openings }] : []));
  }

  /**
   * @param {string} rule
   * @param {Side} side
   * @param {{value: number, from: [number, number], to: [number, number] | null, nets?: number[],
   *   measure?: import("./measures.js").Measure | undefined}} found in pixels
   * @param {string[]} shown of which layers, without the side's name
   * @returns {import("./rules.js").Breach}
   */
  breach(rule, { name, layer }, { value, from, to, nets = [], measure }, shown) {
    const { grid } = this, ends = { from: grid.placeOf(...from), to: to && grid.placeOf(...to) }, length = Math.max(-DEEPEST, value * grid.pitch);
    const drawn = measure ? grid.measureOf(measure) : ends.to && (length < 0 ? towards(ends.from, ends.to, -length) : between(ends.from, ends.to, length));
    return { rule, value: length, within: this.within, layer, ...ends, measure: drawn, nets, sources: [], shown: shown.map((what) => `${name}-${what}`) };
  }

  /** @param {number} limit in nm @returns {BreachSteps} */
  * web(limit) {
    const most = limit / this.grid.pitch, found = [];
    for (const side of this.masked) {
      const webs = yield* webSteps(side.openings, most);
      found.push(webs.map(({ width, from, to, measure }) => this.breach("mask-web", side, { value: width, from, to, measure }, ["mask"])));
    }
    return found.flat();
  }

  /** @param {number} limit in nm @returns {BreachSteps} */
  * bare(limit) {
    const { nets, grid: { pitch } } = this, found = [];
    for (const side of this.masked) {
      const openings = netsOf([side.openings]), owners = this.ownersOf(side, openings);
      yield;
      const met = yield* meetingSteps(piecesOf(openings), ownersOf(nets, side.layer), { most: limit / pitch, deepIn: side.openings,
        deepest: DEEPEST / pitch, isWanted: (opening, net) => !owners[opening]?.has(net) });
      found.push(met.map((own) => this.breach("mask-bare", side, { ...fromCopper(own), nets: [own.other] }, ["mask"])));
    }
    return found.flat();
  }

  /**
   * The nets that each opening is for: those of the pads in it; of one without a pad that of which the most copper lies in it. One
   * without copper is for none.
   * @param {Side & {openings: import("./runs.js").Runs}} side
   * @param {import("./nets.js").Nets} openings
   * @returns {Set<number>[]}
   */
  ownersOf(side, openings) {
    const { nets, grid } = this;
    /** @type {Set<number>[]} */
    const owners = [];
    for (const places of side.pads) {
      for (const [x, y] of places) {
        const column = grid.columnOf(x), row = grid.rowOf(y), opening = openings.pieceAt(0, column, row), net = nets.netAt(side.layer, column, row);
        if (opening < 0 || net < 0) continue;
        (owners[opening] ??= new Set()).add(net);
        break;
      }
    }
    for (const [opening, areas] of this.bareAreas(side, openings, (piece) => owners[piece] === undefined)) {
      const [most] = [...areas].sort(([, one], [, other]) => other - one);
      if (most) owners[opening] = new Set([most[0]]);
    }
    return owners;
  }

  /**
   * How many pixels of each net lie in each of some openings.
   * @param {Side & {openings: import("./runs.js").Runs}} side
   * @param {import("./nets.js").Nets} openings
   * @param {(opening: number) => boolean} isWanted
   * @returns {Map<number, Map<number, number>>}
   */
  bareAreas({ layer }, openings, isWanted) {
    const copper = ownersOf(this.nets, layer);
    /** @type {Map<number, Map<number, number>>} */
    const areas = new Map();
    openings.visit(isWanted, (_, row, start, end, opening) => {
      const number = row >> 6, band = elementAt(copper.runs.bands, number), last = /** @type {number} */ (band.offsets[(row & 63) + 1]);
      for (let at = band.firstEndingAfter(row & 63, start); at < last; at++) {
        const ownStart = /** @type {number} */ (band.starts[at]), ownEnd = /** @type {number} */ (band.ends[at]);
        if (ownStart >= end) break;
        const net = copper.ownerOf(number, at), own = areas.get(opening) ?? new Map();
        areas.set(opening, own.set(net, (own.get(net) ?? 0) + Math.min(end, ownEnd) - Math.max(start, ownStart)));
      }
    });
    return areas;
  }

  /** @param {number} limit in nm @returns {BreachSteps} */
  * ink(limit) {
    const { nets, grid: { pitch } } = this, found = [];
    for (const side of this.masked) {
      if (!side.ink) continue;
      const bare = this.bareCopper(side), ink = netsOf([side.ink]);
      yield;
      const met = yield* meetingSteps(piecesOf(ink), piecesOf(netsOf([bare])), { most: limit / pitch, deepIn: bare, deepest: DEEPEST / pitch });
      found.push(met.map((own) => {
        const measure = fromCopper(own);
        return this.breach("silk-bare", side, { ...measure, nets: [nets.netAt(side.layer, ...measure.from)] }, ["silk"]);
      }));
    }
    return found.flat();
  }

  /**
   * The copper that no mask covers and no hole takes away.
   * @param {Side & {openings: import("./runs.js").Runs}} side
   */
  bareCopper({ layer, openings }) {
    const { nets } = this, copper = elementAt(nets.copper, layer);
    const drilled = nets.holes.filter(({ from, to }) => from <= layer && layer <= to).map(({ runs }) => flatRows(runs));
    return runsOfFlat(drilled.reduce(difference, common(flatRows(openings), flatRows(copper))), copper.width);
  }

  /** @param {number} limit in nm @returns {BreachSteps} */
  * paste(limit) {
    const { grid: { pitch } } = this, found = [];
    for (const side of this.masked) {
      if (!side.paste) continue;
      const around = Math.ceil(DEEPEST / pitch) + 2, mask = inverse(side.openings, around), paste = netsOf([shifted(side.paste, around)]);
      const back = (/** @type {[number, number]} */ [column, row]) => /** @type {[number, number]} */ ([column - around, row - around]);
      yield;
      const met = yield* meetingSteps(piecesOf(paste), { runs: mask, ownerOf: () => 0 }, { most: limit / pitch, deepIn: mask, deepest: DEEPEST / pitch });
      found.push(met.map((own) => this.breach("paste", side, { ...own, from: back(own.from), to: own.to && back(own.to) }, ["paste"])));
    }
    return found.flat();
  }
}

/**
 * A measure from the copper on, which is the second one of those that are apart; where they overlap it begins on it in any case.
 * @param {import("./overlaps.js").Met} met
 * @returns {{value: number, from: [number, number], to: [number, number] | null}}
 */
function fromCopper({ value, from, to }) {
  return value < 0 || !to ? { value, from, to } : { value, from: to, to: from };
}

/**
 * A picture with so much white around it.
 * @param {import("./runs.js").Runs} runs
 * @param {number} around
 */
function shifted(runs, around) {
  const { offsets, starts, ends } = flatRows(runs), height = runs.height + 2 * around, moved = new Int32Array(height + 1);
  for (let row = 0; row <= height; row++) moved[row] = /** @type {number} */ (offsets[Math.min(runs.height, Math.max(0, row - around))]);
  return runsOfFlat({ offsets: moved, starts: starts.map((start) => start + around), ends: ends.map((end) => end + around) }, runs.width + 2 * around);
}

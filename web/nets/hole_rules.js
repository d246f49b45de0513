// Rules of holes and pads: holes without a pad, pads without a hole, doubled hits, and holes that overlap.

import { Around } from "./around.js";
import { elementAt } from "./lists.js";
import { between, betweenRims, fromRim } from "./measures.js";
import { nearHoles, segmentsOf } from "./strokes.js";

/** @typedef {import("./strokes.js").Hole} Hole */
/** @typedef {import("./rules.js").Breach} Breach */

/** Copper and holes are looked for no farther than this, in nm. */
export const FARTHEST = 1_000_000;
/** What lies as near as this, in nm, is at one place. */
const EXACT = 1;

/**
 * The holes by squares of a grid, those of a length by all squares that it may pass.
 */
class Squares {
  /** @param {Hole[]} holes */
  constructor(holes) {
    /** @type {Map<string, Hole[]>} */
    this.found = new Map();
    for (const hole of holes) for (const key of this.keysOf(hole)) this.found.set(key, [...this.found.get(key) ?? [], hole]);
  }

  /** @param {Hole} hole */
  keysOf({ line }) {
    /** @type {Set<string>} */
    const keys = new Set();
    for (const [[x0, y0], [x1, y1]] of segmentsOf(line)) {
      for (let column = Math.floor(Math.min(x0, x1) / FARTHEST); column <= Math.floor(Math.max(x0, x1) / FARTHEST); column++) {
        for (let row = Math.floor(Math.min(y0, y1) / FARTHEST); row <= Math.floor(Math.max(y0, y1) / FARTHEST); row++) keys.add(`${column} ${row}`);
      }
    }
    return keys;
  }

  /**
   * The holes that may be nearer to a place than `FARTHEST`.
   * @param {number} x
   * @param {number} y
   */
  near(x, y) {
    const column = Math.floor(x / FARTHEST), row = Math.floor(y / FARTHEST);
    return [-1, 0, 1].flatMap((across) => [-1, 0, 1].flatMap((up) => this.found.get(`${column + across} ${row + up}`) ?? []));
  }
}

/**
 * The place of a hole's line that is nearest to a place, and how far that is.
 * @param {Hole} hole
 * @param {number} x
 * @param {number} y
 * @returns {{distance: number, x: number, y: number} | null} null where its line has no place
 */
function nearestOf({ line }, x, y) {
  /** @type {{distance: number, x: number, y: number} | null} */
  let best = null;
  for (const [[x0, y0], [x1, y1]] of segmentsOf(line)) {
    const dx = x1 - x0, dy = y1 - y0, square = dx * dx + dy * dy;
    const part = square ? Math.min(1, Math.max(0, ((x - x0) * dx + (y - y0) * dy) / square)) : 0;
    const distance = Math.hypot(x - x0 - part * dx, y - y0 - part * dy);
    if (!best || distance < best.distance) best = { distance, x: x0 + part * dx, y: y0 + part * dy };
  }
  return best;
}

/** What is checked of holes. */
export class HoleCheck {
  /** @param {import("./rules.js").Checked} checked */
  constructor({ nets, grid, holes, spans, points = [] }) {
    this.nets = nets;
    this.grid = grid;
    this.holes = holes;
    this.spans = spans;
    this.points = points;
    this.within = Math.ceil(grid.pitch * Math.SQRT2);
    this.arounds = nets.copper.map((_, layer) => new Around(nets, layer));
  }

  /**
   * The copper layers that a hole passes, the first and the last.
   * @param {Hole} hole
   */
  spanOf({ layer }) {
    return this.spans[layer] ?? { from: 0, to: this.nets.copper.length - 1 };
  }

  /**
   * The plated holes that join copper.
   * @returns {Hole[]}
   */
  get plated() {
    return this.holes.filter(({ isPlated, layer }) => isPlated && layer < this.spans.length);
  }

  /** @param {number} limit in nm @returns {Breach[]} */
  holePad(limit) {
    return this.plated.flatMap((hole) => {
      const { from, to } = this.spanOf(hole);
      return [...new Set([from, to])].flatMap((layer) => this.padOn(hole, layer, limit));
    });
  }

  /**
   * @param {Hole} hole
   * @param {number} layer
   * @param {number} limit
   * @returns {Breach[]}
   */
  padOn(hole, layer, limit) {
    const { grid } = this, near = this.nearestCopper(hole, layer, limit), [place] = hole.line;
    if (!place || (near && near.distance * grid.pitch <= limit)) return [];
    const found = this.nearestCopper(hole, layer, FARTHEST), to = found && grid.placeOf(found.column, found.row);
    const value = found ? Math.min(FARTHEST, found.distance * grid.pitch) : FARTHEST;
    return [{ rule: "hole-pad", value, within: this.within, layer, from: { x: place[0], y: place[1] }, to, measure: to && fromRim(hole.line, hole.radius, to, value),
      nets: [], sources: [hole.source] }];
  }

  /**
   * @param {Hole} hole
   * @param {number} layer
   * @param {number} most in nm, from its rim
   */
  nearestCopper({ line, radius }, layer, most) {
    const { grid } = this, { pitch } = grid, column = (/** @type {number} */ x) => (x - grid.x) / pitch - 0.5;
    const row = (/** @type {number} */ y) => grid.height - 0.5 - (y - grid.y) / pitch;
    /** @type {(import("./around.js").Found & {net: number}) | null} */
    let found = null;
    for (const [[x0, y0], [x1, y1]] of segmentsOf(line)) {
      const stroke = { x0: column(x0), y0: row(y0), x1: column(x1), y1: row(y1), radius: radius / pitch };
      // A pixel more, so that copper at the limit is found.
      const one = elementAt(this.arounds, layer).nearestCopper(stroke, Math.min(most / pitch + 1, found ? found.distance : Infinity), () => true);
      if (one && (!found || one.distance < found.distance)) found = one;
    }
    return found;
  }

  /** @param {number} limit in nm @returns {Breach[]} */
  padHole(limit) {
    const squares = new Squares(this.plated);
    return this.points.filter(({ isDrilled }) => isDrilled).flatMap(({ x, y, layers, name, net }) => {
      const [first] = layers;
      if (first === undefined) return [];
      /** @type {{distance: number, x: number, y: number} | null} */
      let nearest = null;
      for (const hole of squares.near(x, y)) {
        const { from, to } = this.spanOf(hole), one = nearestOf(hole, x, y);
        if (!one || !layers.every((layer) => from <= layer && layer <= to) || one.distance > FARTHEST) continue;
        if (!nearest || one.distance < nearest.distance) nearest = one;
      }
      if (nearest && nearest.distance <= limit) return [];
      const told = net === null ? name : `${name} of ${net}`, from = { x, y }, to = nearest && { x: nearest.x, y: nearest.y };
      return [{ rule: "pad-hole", value: nearest ? nearest.distance : FARTHEST, within: EXACT, layer: first, from, to,
        measure: to && nearest && between(from, to, nearest.distance), nets: [], sources: [], shown: [told] }];
    });
  }

  /**
   * Whether two holes are in the same material: they pass two layers of copper in common, or the board has one alone.
   * @param {Hole} one
   * @param {Hole} other
   */
  areInOne(one, other) {
    const first = this.spanOf(one), second = this.spanOf(other), from = Math.max(first.from, second.from), to = Math.min(first.to, second.to);
    return to > from || (first.from === second.from && first.to === second.to);
  }

  /** @param {number} limit in nm @returns {Breach[]} */
  doubled(limit) {
    return this.nearPairs(limit).flatMap(({ holes: [one, other] }) => {
      const value = apartOf(one, other), [from] = one.line, [to] = other.line;
      return value >= limit || !from || !to ? [] : [this.pair("doubled", value, one, other, from, to)];
    });
  }

  /** @param {number} limit in nm @returns {Breach[]} */
  overlap(limit) {
    return this.nearPairs(-limit).map(({ holes: [one, other], distance, from, to }) => this.pair("overlap", -distance, one, other, from, to));
  }

  /**
   * The pairs of holes in the same material whose rims are nearer than a length.
   * @param {number} most
   */
  nearPairs(most) {
    return nearHoles(this.holes, most).filter(({ holes: [one, other] }) => this.areInOne(one, other));
  }

  /**
   * @param {string} rule
   * @param {number} value
   * @param {Hole} one
   * @param {Hole} other
   * @param {[number, number]} from
   * @param {[number, number]} to
   * @returns {Breach}
   */
  pair(rule, value, one, other, from, to) {
    const ends = { from: { x: from[0], y: from[1] }, to: { x: to[0], y: to[1] } };
    const measure = rule === "overlap" ? betweenRims(ends.from, ends.to, one.radius, -value) : between(ends.from, ends.to, value);
    return { rule, value, within: EXACT, layer: null, ...ends, measure, nets: [], sources: [one.source, other.source] };
  }
}

/**
 * How far apart two holes of one form lie: the most that a place of one's line is from that of the other, in their order or in the
 * other one; Infinity where their lines have not as many places.
 * @param {Hole} one
 * @param {Hole} other
 */
function apartOf({ line }, { line: own }) {
  if (line.length !== own.length) return Infinity;
  const most = (/** @type {[number, number][]} */ places) => places.reduce((found, [x, y], at) => {
    const [ownX, ownY] = elementAt(line, at);
    return Math.max(found, Math.hypot(x - ownX, y - ownY));
  }, 0);
  return Math.min(most(own), most([...own].reverse()));
}

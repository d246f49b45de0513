// How a netlist lies on the board: its points are laid on the centres of pads and of holes, about the same origin, then shifted,
// then mirrored and turned by quarters too, and in the other unit.

import { INCHES, MILLIMETRES } from "./ipc.js";
import { elementAt } from "./lists.js";

/** @typedef {{x: number, y: number}} Point lengths are in nm */

/**
 * What is done to the places of a netlist: scaled, mirrored (x becomes -x), turned, shifted, in this order.
 * @typedef {object} Alignment
 * @property {number} scale
 * @property {boolean} isMirrored
 * @property {number} turn quarter turns to the left, 0 to 3
 * @property {number} x the shift
 * @property {number} y
 * @property {number} matched how many points lie on the centre of a pad or of a hole then
 * @property {number} count how many points there are
 */

/** A point lies on a centre that is nearer than this. */
const NEAR = 100_000;
/** Shifts that differ by less are one at first. */
const STEP = 50_000;
/** So many of the points are laid on every centre, in so many pairs at most; so many of the shifts that come of it are tried. */
const MOST_LAID = 48, MOST_PAIRS = 4_000_000, MOST_TRIED = 16;
/** Shifts are tried with so many points. */
const SOME = 500;
/** What part of the points has to lie on centres, so that anything is compared. */
const ENOUGH = 0.9;

/**
 * @param {number} value
 * @param {number} step
 */
const cell = (value, step) => Math.floor(value / step);
/**
 * A number for a pair of whole numbers.
 * @param {number} column
 * @param {number} row
 */
const key = (column, row) => column * 67_108_864 + row;

/** Places to look for near others. */
export class Centres {
  /** @param {Point[]} places */
  constructor(places) {
    /** @type {Map<number, Point[]>} */
    this.cells = new Map();
    /** @type {Point[]} each once */
    this.places = [];
    for (const place of places) {
      const at = key(cell(place.x, NEAR), cell(place.y, NEAR)), known = this.cells.get(at);
      if (known?.some(({ x, y }) => x === place.x && y === place.y)) continue;
      this.places.push(place);
      if (known) known.push(place);
      else this.cells.set(at, [place]);
    }
  }

  /**
   * The nearest centre that a point lies on.
   * @param {number} x
   * @param {number} y
   * @returns {Point | null}
   */
  near(x, y) {
    const column = cell(x, NEAR), row = cell(y, NEAR);
    /** @type {Point | null} */
    let found = null;
    let least = NEAR * NEAR;
    for (let across = -1; across <= 1; across++) {
      for (let up = -1; up <= 1; up++) {
        for (const place of this.cells.get(key(column + across, row + up)) ?? []) {
          const square = (place.x - x) ** 2 + (place.y - y) ** 2;
          if (square > least) continue;
          least = square;
          found = place;
        }
      }
    }
    return found;
  }

  /**
   * How many points lie on a centre.
   * @param {Point[]} points
   * @param {Point} shift
   */
  count(points, shift) {
    return points.reduce((sum, { x, y }) => sum + (this.near(x + shift.x, y + shift.y) ? 1 : 0), 0);
  }
}

/**
 * A few of the points, spread over all of them.
 * @param {Point[]} points
 * @param {number} count
 */
function some(points, count) {
  const step = Math.max(1, points.length / count);
  return Array.from({ length: Math.min(count, points.length) }, (_, at) => elementAt(points, Math.floor(at * step)));
}

/**
 * A place after an alignment.
 * @param {Alignment} alignment
 * @param {Point} place
 * @returns {Point}
 */
export function aligned({ scale, isMirrored, turn, x, y }, place) {
  let across = place.x * scale * (isMirrored ? -1 : 1), up = place.y * scale;
  for (let quarter = 0; quarter < turn; quarter++) [across, up] = [-up, across];
  return { x: across + x, y: up + y };
}

/**
 * The shifts that lay the most of a few points on centres.
 * @param {Point[]} points
 * @param {Point[]} centres
 * @returns {Point[]}
 */
function candidates(points, centres) {
  /** @type {Map<number, {x: number, y: number, count: number}>} */
  const votes = new Map();
  for (const point of some(points, Math.max(8, Math.min(MOST_LAID, MOST_PAIRS / centres.length)))) {
    for (const centre of centres) {
      const x = centre.x - point.x, y = centre.y - point.y, at = key(cell(x, STEP), cell(y, STEP)), vote = votes.get(at);
      if (vote) vote.count++;
      else votes.set(at, { x, y, count: 1 });
    }
  }
  return [...votes.values()].sort((one, other) => other.count - one.count).slice(0, MOST_TRIED);
}

/**
 * A shift with what points are off their centres by in the middle taken from it.
 * @param {Centres} centres
 * @param {Point[]} points
 * @param {Point} shift
 */
function settled(centres, points, { x, y }) {
  const off = points.flatMap((point) => {
    const centre = centres.near(point.x + x, point.y + y);
    return centre ? [{ x: centre.x - point.x - x, y: centre.y - point.y - y }] : [];
  });
  if (!off.length) return { x, y };
  const middle = (/** @type {"x" | "y"} */ axis) => elementAt(off.map((one) => one[axis]).sort((one, other) => one - other), off.length >> 1);
  return { x: Math.round(x + middle("x")), y: Math.round(y + middle("y")) };
}

/**
 * The best shift of points.
 * @param {Point[]} points
 * @param {Centres} centres
 * @param {boolean} isFirst whether none may be it, and is to be preferred
 * @returns {Point & {matched: number}}
 */
function shiftOf(points, centres, isFirst) {
  const none = { x: 0, y: 0, matched: isFirst ? centres.count(points, { x: 0, y: 0 }) : -1 };
  if (none.matched === points.length) return none;
  const few = some(points, SOME);
  const tried = candidates(points, centres.places).map((shift) => settled(centres, few, shift))
    .map((shift) => ({ ...shift, matched: centres.count(few, shift) })).sort((one, other) => other.matched - one.matched);
  return tried.slice(0, 3).map((shift) => ({ ...shift, matched: centres.count(points, shift) }))
    .reduce((best, shift) => (shift.matched > best.matched ? shift : best), none);
}

/**
 * How a netlist lies on the board: so that the most of its points lie on the centres of pads and of holes.
 * @param {import("./ipc.js").Netlist} netlist
 * @param {Point[]} centres
 * @returns {Alignment}
 */
export function alignmentOf(netlist, centres) {
  const points = pointsOf(netlist), known = new Centres(centres), count = points.length;
  const other = netlist.nm === INCHES.nm ? MILLIMETRES.nm : INCHES.nm;
  let best = { scale: 1, isMirrored: false, turn: 0, ...shiftOf(points, known, true), count };
  for (const scale of [1, other / netlist.nm]) {
    for (const isMirrored of [false, true]) {
      for (const turn of [0, 1, 2, 3]) {
        if (isEnough(best)) return best;
        if (scale === 1 && !isMirrored && turn === 0) continue;
        const way = { scale, isMirrored, turn, x: 0, y: 0, matched: 0, count };
        const found = { ...way, ...shiftOf(points.map((point) => aligned(way, point)), known, scale !== 1 && !isMirrored && turn === 0) };
        if (found.matched > best.matched) best = found;
      }
    }
  }
  return best;
}

/**
 * The points of a netlist that lie on pads and vias.
 * @param {import("./ipc.js").Netlist} netlist
 */
function pointsOf({ points }) {
  return points.filter(({ kind }) => kind !== "tooling");
}

/**
 * A shift that is given.
 * @param {import("./ipc.js").Netlist} netlist
 * @param {Point[]} centres
 * @param {Point} shift
 * @returns {Alignment}
 */
export function shifted(netlist, centres, { x, y }) {
  const points = pointsOf(netlist);
  return { scale: 1, isMirrored: false, turn: 0, x, y, matched: new Centres(centres).count(points, { x, y }), count: points.length };
}

/** No more differences of copies are tried. */
const MOST_DIFFERENCES = 4_000;

/**
 * The shifts under which a netlist lies on the copies of a panel.
 * @param {import("./ipc.js").Netlist} netlist
 * @param {Point[]} centres
 * @param {Alignment} alignment how it lies on one of them
 * @param {[number, number][]} copies by how much each copy is moved
 * @returns {Point[]}
 */
export function copiesAt(netlist, centres, alignment, copies) {
  /** @type {Map<string, Point>} */
  const shifts = new Map([["0 0", { x: 0, y: 0 }]]);
  for (const [x0, y0] of copies) {
    for (const [x1, y1] of copies) if (shifts.size < MOST_DIFFERENCES) shifts.set(`${x1 - x0} ${y1 - y0}`, { x: x1 - x0, y: y1 - y0 });
  }
  const points = pointsOf(netlist).map((point) => aligned({ ...alignment, x: 0, y: 0 }, point)), known = new Centres(centres), few = some(points, 100);
  return [...shifts.values()].map(({ x, y }) => ({ x: alignment.x + x, y: alignment.y + y }))
    .filter((shift) => known.count(few, shift) >= 0.8 * few.length && known.count(points, shift) >= ENOUGH * points.length);
}

/**
 * Whether so many points lie on centres that the netlist is one of this board.
 * @param {Alignment} alignment
 */
export function isEnough({ matched, count }) {
  return matched >= ENOUGH * count;
}

/**
 * An alignment in words.
 * @param {Alignment} alignment
 * @param {import("./ipc.js").Netlist} netlist
 * @param {string} shift its shift, in words
 */
export function alignmentWords({ scale, isMirrored, turn, x, y, matched, count }, netlist, shift) {
  const unit = netlist.nm * scale === INCHES.nm ? INCHES.words : MILLIMETRES.words;
  return [`${matched} of ${count} on the centres of pads and holes`,
    ...(scale === 1 ? [] : [`read in ${unit} ${netlist.isUnitTold ? `in place of ${netlist.unit}` : "since it has no line UNITS"}`]),
    ...(isMirrored ? ["mirrored, left for right"] : []), ...(turn ? [`turned by ${90 * turn} degrees`] : []),
    x === 0 && y === 0 ? "about the origin of the Gerber files" : `shifted by ${shift}`].join(", ");
}

// Where solder mask is narrow: between two openings, between two sides of one, and islands of it in one.

import { RowsMade, flatRows, runsOfFlat } from "./discs.js";
import { nearSteps } from "./clearances.js";
import { elementAt } from "./lists.js";
import { across, throughDisc } from "./measures.js";
import { netsOf } from "./nets.js";
import { thinSteps } from "./necks.js";
import { Deepest } from "./overlaps.js";
import { atOnce } from "./steps.js";

/**
 * A narrow place: `from` and, between two openings, `to` are pixels; within one `measure` leads from edge to edge; in pixels.
 * @typedef {{width: number, from: [number, number], to: [number, number] | null, measure?: import("./measures.js").Measure | undefined}} Web
 *
 * An opening as the runs of its rows, [row, start, end, row, start, end ..].
 * @typedef {{left: number, right: number, top: number, bottom: number, runs: number[]}} Opening
 */

/** A side that bends in by no more than this, in pixels, is convex: it is the steps of a straight one. */
const STRAIGHT = 1.5;

/**
 * What is white, and so many rows and columns of white around the picture.
 * @param {import("./runs.js").Runs} runs
 * @param {number} around
 * @returns {import("./runs.js").Runs}
 */
export function inverse(runs, around) {
  const width = runs.width + 2 * around, height = runs.height + 2 * around, { offsets, starts, ends } = flatRows(runs);
  const made = new RowsMade(height, starts.length + height);
  for (let row = -around; row < runs.height + around; row++) {
    let last = 0;
    if (row >= 0 && row < runs.height) {
      for (let at = /** @type {number} */ (offsets[row]); at < /** @type {number} */ (offsets[row + 1]); at++) {
        if (/** @type {number} */ (starts[at]) + around > last) made.add(last, /** @type {number} */ (starts[at]) + around);
        last = /** @type {number} */ (ends[at]) + around;
      }
    }
    if (last < width) made.add(last, width);
    made.endRow();
  }
  return runsOfFlat(made.made(), width);
}

/**
 * The openings of a mask, one by one.
 * @param {import("./nets.js").Nets} nets of the openings
 * @returns {Opening[]}
 */
function openingsOf(nets) {
  /** @type {Opening[]} */
  const found = [];
  nets.visit(() => true, (_, row, start, end, number) => {
    const opening = found[number] ??= { left: start, right: end, top: row, bottom: row, runs: [] };
    opening.left = Math.min(opening.left, start);
    opening.right = Math.max(opening.right, end);
    opening.bottom = row;
    opening.runs.push(row, start, end);
  });
  return found;
}

/**
 * Whether a boundary, a column for each row, bends in nowhere. `side` is 1 where the inside lies at greater columns.
 * @param {number[]} columns
 * @param {1 | -1} side
 */
function isConvexSide(columns, side) {
  /** @type {number[]} the rows of the hull's corners */
  const hull = [];
  const at = (/** @type {number} */ row) => /** @type {number} */ (columns[row]) * side;
  for (let row = 0; row < columns.length; row++) {
    while (hull.length > 1) {
      const last = /** @type {number} */ (hull[hull.length - 1]), before = /** @type {number} */ (hull[hull.length - 2]);
      if ((at(last) - at(before)) * (row - last) < (at(row) - at(last)) * (last - before)) break;
      hull.pop();
    }
    hull.push(row);
  }
  for (let corner = 1; corner < hull.length; corner++) {
    const first = /** @type {number} */ (hull[corner - 1]), last = /** @type {number} */ (hull[corner]);
    const slope = (at(last) - at(first)) / (last - first);
    for (let row = first + 1; row < last; row++) if (at(row) - at(first) - slope * (row - first) > STRAIGHT) return false;
  }
  return true;
}

/**
 * Whether an opening has one run a row and no side that bends in: such a one has mask on its outside alone.
 * @param {Opening} opening
 */
function isConvex({ top, bottom, runs }) {
  if (runs.length / 3 !== bottom - top + 1) return false;
  const starts = runs.filter((_, at) => at % 3 === 1), ends = runs.filter((_, at) => at % 3 === 2);
  return isConvexSide(starts, 1) && isConvexSide(ends, -1);
}

/**
 * The picture of one opening alone.
 * @param {Opening} opening
 */
function pictureOf({ left, right, top, bottom, runs }) {
  const made = new RowsMade(bottom - top + 1, runs.length / 3);
  for (let at = 0, row = top; row <= bottom; row++) {
    for (; runs[at] === row; at += 3) made.add(/** @type {number} */ (runs[at + 1]) - left, /** @type {number} */ (runs[at + 2]) - left);
    made.endRow();
  }
  return runsOfFlat(made.made(), right - left);
}

/**
 * The islands of mask in an opening that are narrower than a width, by the largest disc in each.
 * @param {import("./nets.js").Nets} mask
 * @param {number} width
 * @returns {Map<number, Web>} by their pieces
 */
function islandsOf(mask, width) {
  const most = width / 2 + 2, deepest = new Deepest(elementAt(mask.copper, 0), most), outside = mask.netAt(0, 0, 0);
  /** @type {Map<number, Web>} */
  const found = new Map();
  mask.visit((net) => net !== outside, (_, row, start, end, net) => {
    const known = found.get(net), deeper = deepest.in(row, start, end, known ? (known.width + 1) / 2 : 0);
    if (deeper) found.set(net, { width: 2 * deeper.depth - 1, from: deeper.at, to: null, measure: ofIsland(deeper) });
  });
  for (const [net, { width: own }] of found) if (own >= width) found.delete(net);
  return found;
}

/**
 * The narrow places of the mask within one opening, about its left and upper corner.
 * @param {Opening} opening
 * @param {number} width
 * @returns {import("./steps.js").Steps<Web[]>}
 */
function* websIn(opening, width) {
  const around = Math.ceil(width) + 4, mask = netsOf([inverse(pictureOf(opening), around)]), islands = islandsOf(mask, width);
  const thin = (yield* thinSteps(mask, width, 0)).filter(({ net }) => !islands.has(net)).sort((one, other) => one.width - other.width);
  return [...islands.values(), ...thin.map(({ width: own, column, row, disc }) => /** @type {Web} */ ({ width: own, from: [column, row], to: null,
    measure: throughDisc(disc, own) }))].map((web) => moved(web, -around, -around));
}

/**
 * A place within one opening, so many columns and rows farther.
 * @param {Web} web
 * @param {number} columns
 * @param {number} rows
 * @returns {Web}
 */
function moved({ width, from: [column, row], measure }, columns, rows) {
  const move = (/** @type {import("./measures.js").Spot} */ { x, y }) => ({ x: x + columns, y: y + rows });
  return { width, from: [column + columns, row + rows], to: null, measure: measure && [move(measure[0]), move(measure[1])] };
}

/**
 * The measure of the largest disc in an island.
 * @param {{depth: number, at: [number, number], to: [number, number] | null}} deepest
 */
function ofIsland({ depth, at: [x, y], to }) {
  const [right, down] = to ?? [x + 1, y];
  return across({ x, y }, { x: right - x, y: down - y }, 2 * depth - 1);
}

/**
 * Where the mask is narrower than a width, the narrowest place first, in steps.
 * @param {import("./runs.js").Runs} openings
 * @param {number} width in pixels
 * @returns {import("./steps.js").Steps<Web[]>}
 */
export function* webSteps(openings, width) {
  const nets = netsOf([openings]), between = (yield* nearSteps(nets, width, 0)).map(({ from, to, distance }) => ({ width: distance, from, to }));
  yield;
  /** @type {Map<string, Web[]>} what is known of openings of the same pixels */
  const known = new Map(), within = [];
  for (const opening of openingsOf(nets)) {
    yield;
    if (isConvex(opening)) continue;
    const { left, top, runs } = opening, key = runs.map((value, at) => value - (at % 3 ? left : top)).join(" ");
    const webs = known.get(key) ?? (yield* websIn(opening, width));
    known.set(key, webs);
    within.push(...webs.map((web) => moved(web, left, top)));
  }
  // What another opening lies in is no mask there.
  return [...between, ...within.filter(({ from: [column, row] }) => !openings.isBlack(column, row))]
    .sort((one, other) => one.width - other.width);
}

/**
 * The same at once.
 * @param {import("./runs.js").Runs} openings
 * @param {number} width
 * @returns {Web[]}
 */
export function websOf(openings, width) {
  return atOnce(webSteps(openings, width));
}

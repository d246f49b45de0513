// What became of the items that only one of two lists has: which moved, which have another aperture, tool, polarity, turn,
// end or contour, and which came or went. How they are put together is for people; each item is in exactly one change.

import { Loose, grouped, looseItem } from "./loose.js";
import { shiftedPairs, takeNear } from "./shifts.js";

/** @typedef {import("./loose.js").LooseItem} LooseItem */
/** @typedef {import("./loose.js").Joined} Joined */

/**
 * A change of a layer.
 * @typedef {object} Change
 * @property {"came" | "went" | "moved" | "changed" | "reordered"} what
 * @property {number | null} from its place among the items of the first layer
 * @property {number | null} to its place among those of the second
 * @property {string[]} parts what of it changed: aperture, tool, polarity, turn, direction, end, contour
 * @property {number} dx of one that moved, in nm
 * @property {number} dy
 * @property {import("../board/index.js").Box[]} boxes where, in nm
 */

/** Regions are one, changed, where they share such a part of the corners of the one with fewer. */
const SHARED = 0.25;

/** @param {LooseItem} from @param {LooseItem} to */
function differing(from, to) {
  /** @type {string[]} */
  const parts = [];
  const isHole = from.kind === "hit" || from.kind === "rout";
  if (from.entry !== to.entry) parts.push(isHole ? "tool" : "aperture");
  if (from.polarity !== to.polarity) parts.push("polarity");
  if (from.turn !== to.turn) parts.push(from.kind === "arc" ? "direction" : "turn");
  if (from.points.join() !== to.points.join()) parts.push("end");
  return parts;
}

// By which keys an item may be found among those of the other list: where it lies, and what it has besides.
/** @type {((item: LooseItem) => string)[]} */
const SAME_PLACE = [
  ({ kind, turn, polarity, points }) => `${kind} ${turn} ${polarity} ${points.join(" ")}`,
  ({ kind, entry, turn, points }) => `${kind} ${entry} ${turn} ${points.join(" ")}`,
  ({ kind, entry, polarity, points }) => `${kind} ${entry} ${polarity} ${points.join(" ")}`,
  ({ kind, points }) => `${kind} ${points.join(" ")}`,
];
/** @type {((item: LooseItem) => string)[]} */
const SAME_END = [
  ({ kind, entry, turn, polarity, points }) => `${kind} ${entry} ${turn} ${polarity} ${points[0]} ${points[1]}`,
  ({ kind, entry, turn, polarity, points }) => `${kind} ${entry} ${turn} ${polarity} ${points.slice(kind === "arc" ? 2 : -2).join(" ")}`,
];

/**
 * Items of both lists with an equal key are one, changed.
 * @param {Loose} loose
 * @param {(item: LooseItem) => string} keyOf
 * @param {(item: LooseItem) => boolean} isWanted
 */
function takeByKey(loose, keyOf, isWanted) {
  const from = loose.went.filter(isWanted), to = loose.came.filter(isWanted);
  if (!from.length || !to.length) return;
  const waiting = grouped(to.reverse(), keyOf);
  /** @type {Joined[]} */
  const found = [];
  for (const one of from) {
    const other = waiting.get(keyOf(one))?.pop();
    if (other) found.push({ from: one, to: other, parts: differing(one, other) });
  }
  loose.take(found);
}

/** @param {LooseItem} item */
const cornersOf = ({ item }) => new Set(item.match(/-?\d+ -?\d+/g) ?? []);
/** @param {LooseItem} item */
const contourOf = ({ item, polarity }) => item.slice("region ".length + polarity.length);

/** @param {Set<string>} corners @param {Map<string, LooseItem>} owners @param {Set<LooseItem>} free */
function mostShared(corners, owners, free) {
  /** @type {Map<LooseItem, number>} */
  const counts = new Map();
  for (const corner of corners) {
    const owner = owners.get(corner);
    if (owner && free.has(owner)) counts.set(owner, (counts.get(owner) ?? 0) + 1);
  }
  /** @type {{other: LooseItem, count: number} | null} */
  let most = null;
  for (const [other, count] of counts) if (!most || count > most.count) most = { other, count };
  return most;
}

/**
 * Regions whose contours share corners are one, changed.
 * @param {Loose} loose
 */
function takeRegions(loose) {
  const isRegion = (/** @type {LooseItem} */ { kind }) => kind === "region";
  const from = loose.went.filter(isRegion), free = new Set(loose.came.filter(isRegion));
  if (!from.length || !free.size) return;
  /** @type {Map<string, LooseItem>} */
  const owners = new Map();
  /** @type {Map<LooseItem, number>} */
  const sizes = new Map();
  for (const other of free) {
    const corners = cornersOf(other);
    sizes.set(other, corners.size);
    for (const corner of corners) owners.set(corner, other);
  }
  /** @type {Joined[]} */
  const found = [];
  for (const one of from) {
    const corners = cornersOf(one), most = mostShared(corners, owners, free);
    if (!most || most.count < SHARED * Math.min(corners.size, sizes.get(most.other) ?? 0)) continue;
    free.delete(most.other);
    found.push({ from: one, to: most.other, parts: [...one.polarity === most.other.polarity ? [] : ["polarity"],
      ...contourOf(one) === contourOf(most.other) ? [] : ["contour"]] });
  }
  loose.take(found);
}

/** @param {Joined} joined @returns {Change} */
function changeOf({ from, to, parts }) {
  return { what: parts.length ? "changed" : "moved", from: from.place, to: to.place, parts, dx: to.x - from.x, dy: to.y - from.y, boxes: [] };
}

/**
 * What became of the items that only one of two lists has, without where.
 * @param {readonly string[]} first
 * @param {readonly string[]} second
 * @param {import("./matching.js").Matching} matching
 * @returns {Change[]}
 */
export function changesOf(first, second, { went, came }) {
  // (the places are those of a matching of both)
  const ofList = (/** @type {readonly string[]} */ items) => (/** @type {number} */ place) => looseItem(place, /** @type {string} */ (items[place]));
  const loose = new Loose(went.map(ofList(first)), came.map(ofList(second)));
  const hasEntry = (/** @type {LooseItem} */ { entry }) => entry !== "";
  loose.take(shiftedPairs(loose));
  for (const keyOf of SAME_PLACE) takeByKey(loose, keyOf, hasEntry);
  takeNear(loose);
  for (const keyOf of SAME_END) takeByKey(loose, keyOf, (item) => hasEntry(item) && item.points.length > 2);
  takeRegions(loose);
  /** @type {(what: "came" | "went", place: number) => Change} */
  const alone = (what, place) => ({ what, from: what === "went" ? place : null, to: what === "came" ? place : null, parts: [], dx: 0, dy: 0, boxes: [] });
  return [...loose.joined.map(changeOf), ...loose.went.map(({ place }) => alone("went", place)), ...loose.came.map(({ place }) => alone("came", place))];
}

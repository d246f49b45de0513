// What lies at a point of the board: all items there, which of them a click picks, and those near it.

import { countsOf, described, entriesOf } from "./answers.js";
import { linesOf } from "../station/index.js";

/** @typedef {import("../station/index.js").Station} Station */

// So many regions of a layer give way to what lies on them, so that a click is answered though thousands of them lie there; so many
// items are listed, more than a menu is read through; and so many are looked at near a point, whose shapes the page measures.
const GIVE_WAY = 1000, LISTED = 200, NEAR = 60;
// Of a layer with more items those that lie wholly near a point are not looked for, which reads every item while the pointer moves:
// those at points around it are.
const MANY = 200000;
// Words of more letters, of regions with thousands of corners, are not handed over where only what is near is wanted.
const LONG = 200000;

const text = new TextEncoder(), words = new TextDecoder();

// The places of a layer's items at a point, the topmost first.
/** @param {Station} station @param {string} name @param {number} x @param {number} y */
function* placesAt(station, name, x, y) {
  for (let [place] = linesOf(station, `at ${name} ${x} ${y}`); place !== undefined;) {
    yield Number(place);
    [place] = linesOf(station, `at ${name} ${x} ${y} ${place}`);
  }
}

// (the words of a region can be long, and its first word is enough)
/** @param {Station} station @param {string} name @param {number} place */
const isRegion = (station, name, place) => station.ask(text.encode(`item ${name} ${place}`)) === 0
  && words.decode(station.file.subarray(0, 7)) === "region ";

// The items of a layer in the order of clicks: a region comes after all that lies on it or under it.
/** @param {Station} station @param {string} name @param {number} x @param {number} y @returns {Generator<Board.Place>} */
function* clickedAt(station, name, x, y) {
  /** @type {Board.Place[]} */
  const regions = [];
  for (const place of placesAt(station, name, x, y)) {
    if (!isRegion(station, name, place)) yield { name, place };
    else if (regions.push({ name, place }) === GIVE_WAY) yield* regions.splice(0);
  }
  yield* regions;
}

/** @param {Station} station @param {string[]} pile @param {number} x @param {number} y */
function* pileOf(station, pile, x, y) {
  for (const name of pile) yield* clickedAt(station, name, x, y);
}

/**
 * The item that a click picks: of the layers of a pile, the topmost first, the first one; or the one behind another that
 * was picked before, and again the first where none is behind it.
 * @param {Station} station
 * @param {Board.Asked["under"]} message
 * @returns {Board.Answered["under"]}
 */
export function under(station, { pile, x, y, below }) {
  /** @type {Board.Place | null} */
  let first = null;
  let isNext = !below;
  for (const found of pileOf(station, pile, x, y)) {
    if (isNext) return { found };
    first ??= found;
    isNext = found.name === below?.name && found.place === below.place;
  }
  return { found: first };
}

/**
 * All items at a point of the shown layers, the topmost first, and whether there are more than are listed.
 * @param {Station} station
 * @param {Board.Asked["pile"]} message
 * @returns {Board.Answered["pile"]}
 */
export function pileAt(station, { pile, x, y }) {
  const items = [];
  for (const name of pile) {
    for (const place of placesAt(station, name, x, y)) {
      if (items.length === LISTED) return { items, isMore: true };
      items.push(described(station, { name, place }));
    }
  }
  return { items, isMore: false };
}

// Points of a square around one, at most so far away along an axis.
const AROUND = [-1, -0.5, 0, 0.5, 1];

// The places of a layer's items that lie wholly in the square.
/** @param {Station} station @param {string} name @param {number} x @param {number} y @param {number} reach */
function placesIn(station, name, x, y, reach) {
  const [left, low] = [x - reach, y - reach].map(Math.floor), [right, high] = [x + reach, y + reach].map(Math.ceil);
  return linesOf(station, `in ${name} ${left} ${low} ${right} ${high}`).slice(0, NEAR).map(Number);
}

// Those, where the layer is not too large, and the places of its items that lie at one of these points.
/** @param {Station} station @param {string} name @param {number} count @param {Board.Point & { reach: number }} around @returns {Set<number>} */
function placesNear(station, name, count, { x, y, reach }) {
  const places = new Set(count > MANY ? [] : placesIn(station, name, x, y, reach));
  for (const dx of AROUND) {
    for (const dy of AROUND) {
      for (const place of placesAt(station, name, Math.round(x + dx * reach), Math.round(y + dy * reach))) {
        if (places.size >= NEAR) return places;
        places.add(place);
      }
    }
  }
  return places;
}

/**
 * The items near a point of layers, with the definitions of those layers whose names the page does not know yet.
 * @param {Station} station
 * @param {Worker.StationAsked["near"]} message
 * @returns {Worker.StationAnswered["near"]}
 */
export function near(station, { names, unknown, x, y, reach }) {
  const counts = countsOf(station);
  const items = names.flatMap((name) => [...placesNear(station, name, counts.get(name) ?? 0, { x, y, reach })].map((place) =>
    described(station, { name, place }))).filter((item) => item.words.length <= LONG);
  return { items, entries: entriesOf(station, unknown) };
}

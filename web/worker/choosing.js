// Which items of the station are to be picked: those that a box touches, and those that are like others.

import { boxOf, countsOf } from "./answers.js";
import { headOf, itemsOf } from "../station/index.js";

/** @typedef {import("../station/index.js").Station} Station */

// No coordinate of a question is greater, in nm.
const FAR = 4e9;

const LF = 10, ZERO = 48;

// Calls `run` with each place that lies in a box: the answer has a line of digits for each, millions on a large layer.
/** @param {Station} station @param {string} name @param {number[]} box @param {(place: number) => void} run */
function eachIn(station, name, box, run) {
  if (station.ask(new TextEncoder().encode(`in ${name} ${box.join(" ")}`))) return;
  let place = 0;
  for (const byte of station.file) {
    if (byte === LF) {
      run(place);
      place = 0;
    } else {
      place = place * 10 + byte - ZERO;
    }
  }
}

// Whether an item's own box touches a box. One that paints nothing has none.
/** @param {Station} station @param {string} name @param {number} place @param {Board.Box} box */
function isTouched(station, name, place, { left, low, right, high }) {
  const own = boxOf(station, `box ${name} ${place}`);
  return own !== null && own.left <= right && own.right >= left && own.low <= high && own.high >= low;
}

// Which items of a layer lie completely to the left of a box, to the right, below or above, a 1 for each: the others are few.
/** @param {Station} station @param {string} name @param {number} count @param {Board.Box} box */
function besideOf(station, name, count, { left, low, right, high }) {
  const isBeside = new Uint8Array(count);
  const sides = [[-FAR, -FAR, left - 1, FAR], [right + 1, -FAR, FAR, FAR], [-FAR, -FAR, FAR, low - 1], [-FAR, high + 1, FAR, FAR]];
  for (const side of sides) eachIn(station, name, side, (place) => { isBeside[place] = 1; });
  return isBeside;
}

/**
 * The places of the items whose boxes touch a box, edges too; a few more than `most` at most.
 * @param {Station} station
 * @param {Board.Asked["touched"]} message
 * @returns {Board.Places}
 */
export function touched(station, { names, box, most }) {
  const counts = countsOf(station), places = [];
  for (const name of names) {
    const count = counts.get(name) ?? 0, isBeside = besideOf(station, name, count, box);
    for (let place = 0; place < count && places.length <= most; place++) {
      if (!isBeside[place] && isTouched(station, name, place, box)) places.push({ name, place });
    }
  }
  return { places };
}

/**
 * The places of the items of layers that are like one of `of`, { name, key }, in its layer; a few more than `most` at most. A
 * key is a kind, or the number of an aperture or a tool, as the page has it (picking_like.js of its machine).
 * @param {Station} station
 * @param {Board.Asked["like"]} message
 * @returns {Board.Places}
 */
export function like(station, { by, of, most }) {
  const places = [], what = by === "kind" ? "kind" : "number";
  for (const name of new Set(of.map((one) => one.name))) {
    const keys = new Set(of.filter((one) => one.name === name).map(({ key }) => key));
    let place = 0;
    for (const item of itemsOf(station, name)) {
      if (keys.has(String(headOf(item)[what]))) places.push({ name, place });
      if (places.length > most) break;
      place++;
    }
  }
  return { places };
}

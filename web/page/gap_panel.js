// How far two picked items are from one another: to the nm where both have a simple shape, else by their pixels.

import { button, element } from "./dom.js";
import { gapBetween, lengthText, point, shapeOf } from "../board/index.js";

// So many pairs of sides are looked at, since that is done whenever two items are picked; more are left to the pixels.
const PAIRS = 4e6;

// The gap of two picks by their shapes: { distance, from, to }; null where they have none that is simple.
/** @param {Machine.State} state */
function exactOf({ picked, entries }) {
  const [one, other] = picked.map(({ name, words }) => shapeOf(words, entries[name]));
  return !one || !other || one.sides.length * other.sides.length > PAIRS ? null : gapBetween(one, other);
}

// What is known of the gap: { distance, from, to } with `pitch` where it is of pixels; undefined where it was not asked, null where
// it cannot be told.
/** @param {Machine.State} state */
function gapOf(state) {
  if (state.picked.length !== 2) return undefined;
  return exactOf(state) ?? (state.gap?.picked === state.picked ? state.gap.found : undefined);
}

/**
 * The line of the gap, to be shown on the board; null where there is none.
 * @param {Machine.State} state
 */
export function gapLine(state) {
  const found = gapOf(state);
  return found && found.distance > 0 ? found : null;
}

/** @param {Board.Gap} gap @param {string} unit */
function wordsOf({ distance, pitch, from, to }, unit) {
  /** @param {Board.Pair} point */
  const at = ([x, y]) => point(Math.round(x), Math.round(y), unit);
  const between = `between ${at(from)} and ${at(to)}`;
  /** @param {number} nm */
  const length = (nm) => lengthText(Math.round(nm), unit);
  if (!pitch) return distance > 0 ? `gap ${length(distance)} ${unit}, to the nm, ${between}` : "They touch or overlap.";
  // A black pixel has its middle in the item, and each place of an item is within a diagonal of one.
  const least = Math.max(0, distance - 2 * Math.SQRT2 * pitch);
  return `gap from ${length(least)} to ${length(distance)} ${unit}, by pixels of ${pitch.toLocaleString("en")} nm, ${between}`;
}

/**
 * The parts of the panel of what is picked that tell the gap of two items.
 * @param {Page.Runner} machine
 * @param {Machine.State} state
 */
export function gapParts(machine, state) {
  const found = gapOf(state);
  if (state.picked.length !== 2) return [];
  /** @param {string} words */
  const line = (words) => [element("p", { className: "hint", "data-row": "gap" }, words)];
  if (found) return line(wordsOf(found, state.unit));
  if (found === null) return line("Their gap cannot be told: one is a repeat, or paints nothing.");
  return [element("div", { className: "buttons", "data-row": "gap" },
    button("their gap, by pixels", () => machine.gesture({ kind: "gap" })))];
}

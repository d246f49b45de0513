// Where the items of a layer stand after a line: what is picked follows its item through each of them.

import { firstWord, wordsOf } from "./steps.js";

// What a line does to places: { name, from, to }, from null where an item comes in, to null where one goes; null where it
// leaves all where they are.
/** @param {string} line @returns {Machine.Shift | null} */
function shiftOf(line) {
  const [verb, name = "", place, to] = wordsOf(line);
  switch (verb) {
    case "insert": return { name, from: null, to: Number(place) };
    case "delete": return { name, from: Number(place), to: null };
    case "reorder": return { name, from: Number(place), to: Number(to) };
    default: return null;
  }
}

// Where a place is after an item went from one to another; null where it is the one that went.
/** @param {number} place @param {Machine.Shift} shift */
function placeAfter(place, { from, to }) {
  if (place === from) return to;
  const without = from !== null && place > from ? place - 1 : place;
  return to !== null && without >= to ? without + 1 : without;
}

// Groups shift many picks many times, so nothing is made anew of a pick that stays.
/** @param {Machine.Picked[]} picks @param {Machine.Shift} shift */
function shifted(picks, shift) {
  /** @type {Machine.Picked[]} */
  const left = [];
  for (const pick of picks) {
    const place = pick.name === shift.name ? placeAfter(pick.place, shift) : pick.place;
    if (place !== null) left.push(place === pick.place ? pick : { ...pick, place });
  }
  return left;
}

/** @param {string[]} lines */
const shiftsOf = (lines) => lines.flatMap((line) => shiftOf(line) ?? []);

/** @param {Machine.Picked[]} picks @param {string[]} lines */
const forth = (picks, lines) => shiftsOf(lines).reduce(shifted, picks);

/** @param {Machine.Picked[]} picks @param {string[]} lines */
const back = (picks, lines) => shiftsOf(lines).reverse().reduce((left, { name, from, to }) => shifted(left, { name, from: to, to: from }), picks);

// The picks after an accepted line; `steps` are what could be undone and redone before it.
/** @param {Machine.Picked[]} picks @param {string} line @param {Machine.Steps} steps */
export function follow(picks, line, steps) {
  switch (firstWord(line)) {
    case "undo": return back(picks, steps.done.at(-1)?.lines ?? []);
    case "redo": return forth(picks, steps.undone.at(-1)?.lines ?? []);
    case "abort": return back(picks, steps.group ?? []);
    default: return forth(picks, [line]);
  }
}

// What is picked, arranged: turned and mirrored, copied in rows and columns, and aligned. Each is one group of lines.

import { joined, middleFor, shifted, turned } from "../board/index.js";
import { GREATEST } from "./picking.js";

// A line of a script may have so many bytes.
const LONGEST = 65536;

/** @param {Machine.Picked} item */
const isWritten = ({ words }) => words !== "" && !words.startsWith("repeat");

// Why nothing of this can be done to what is picked; null where it can.
/** @param {Machine.State} state @param {string} verb */
function whyNot({ picked, steps }, verb) {
  if (steps.group) return "A group is open: end it first.";
  return picked.length ? null : `Nothing is picked to ${verb}.`;
}

// The same where items are inserted anew.
/** @param {Machine.State} state @param {string} verb @param {string} participle */
const whyNotAnew = (state, verb, participle) => whyNot(state, verb) ?? (state.picked.every(isWritten) ? null
  : `A repeat is picked, which no line inserts, so it cannot be ${participle}.`);

/** @param {string[]} lines */
export const tooLong = (lines) => lines.some((line) => line.length > LONGEST)
  ? { why: `An item has more points than a line of ${LONGEST.toLocaleString("en")} bytes holds, so nothing was done.` } : null;

/** @param {Machine.Picked[]} picked */
const byPlace = (picked) => picked.slice().sort((one, other) => one.place - other.place);

// Each item is deleted, and inserted at the same place of its list as it is after the turn, the last one first.
/** @param {Machine.State} state @param {Machine.EditOf<"turn">} gesture @returns {Machine.Outcome} */
function turn(state, { turn: by }) {
  const why = whyNotAnew(state, "turn", "turned"), box = why ? null : joined(state.picked.map((item) => item.box));
  if (why || !box) return { why: why ?? "What is picked paints nothing, so it has no middle." };
  const middle = middleFor(box, by);
  const lines = byPlace(state.picked).reverse().flatMap(({ name, place, words }) =>
    [`delete ${name} ${place}`, `insert ${name} ${place} ${turned(words, by, middle)}`]);
  return tooLong(lines) ?? { lines, places: state.picked.map(({ name, place }) => ({ name, place })) };
}

// How far the copies are from what is picked, { dx, dy }, row by row.
/** @param {Machine.EditOf<"array">} gesture */
function copySteps({ columns, rows, dx, dy }) {
  const steps = [];
  for (let row = 0; row < rows; row++) {
    for (let column = 0; column < columns; column++) steps.push({ dx: column * dx, dy: row * dy });
  }
  return steps.slice(1);
}

/** @param {number} value */
const isCount = (value) => Number.isInteger(value) && value >= 1;

/** @param {Machine.State} state @param {Machine.EditOf<"array">} gesture */
function whyNoArray({ picked }, { columns, rows, dx, dy }) {
  if (!isCount(columns) || !isCount(rows) || columns * rows < 2) return "The columns and rows are whole numbers, and not both 1.";
  if (columns * rows * picked.length > GREATEST) return `That is more than ${GREATEST} items: make fewer copies.`;
  return Number.isInteger(dx) && Number.isInteger(dy) ? null : "A step is a length, as 2.54, or with a unit, as 100 mil.";
}

// Columns and rows of what is picked, itself the first of them: copies behind the last item of each one's layer.
/** @param {Machine.State} state @param {Machine.EditOf<"array">} gesture @returns {Machine.Outcome} */
function array(state, gesture) {
  const why = whyNotAnew(state, "copy", "copied") ?? whyNoArray(state, gesture);
  if (why) return { why };
  const items = byPlace(state.picked), ends = new Map(state.layers.map((layer) => [layer.name, layer.items]));
  const lines = [], places = state.picked.map(({ name, place }) => ({ name, place }));
  for (const { dx, dy } of copySteps(gesture)) {
    for (const { name, words } of items) {
      const place = ends.get(name);
      if (place === undefined) continue;
      ends.set(name, place + 1);
      lines.push(`insert ${name} ${place} ${shifted(words, dx, dy)}`);
      places.push({ name, place });
    }
  }
  return tooLong(lines) ?? { lines, places };
}

// How far an item's box has to go so that it is aligned with the box of all, in nm.
/** @type {Record<Machine.Alignment, (box: Board.Box, all: Board.Box) => { dx: number, dy: number }>} */
const ALIGNED = {
  left: (box, all) => ({ dx: all.left - box.left, dy: 0 }),
  right: (box, all) => ({ dx: all.right - box.right, dy: 0 }),
  top: (box, all) => ({ dx: 0, dy: all.high - box.high }),
  bottom: (box, all) => ({ dx: 0, dy: all.low - box.low }),
  upright: (box, all) => ({ dx: (all.left + all.right - box.left - box.right) / 2, dy: 0 }),
  level: (box, all) => ({ dx: 0, dy: (all.low + all.high - box.low - box.high) / 2 }),
};

// To the nearest nm, and a half nearer to where it is, so that what is aligned stays where it is.
/** @param {number} length */
const nearest = (length) => Math.sign(length) * Math.ceil(Math.abs(length) - 0.5);

/** @param {Machine.State} state @param {Machine.EditOf<"align">} gesture @returns {Machine.Outcome} */
function align(state, { to }) {
  const painted = state.picked.flatMap(({ name, place, box }) => box ? [{ name, place, box }] : []), all = joined(painted.map(({ box }) => box));
  const why = whyNot(state, "align") ?? (painted.length < 2 ? "Pick two items or more to align them." : null);
  if (why !== null || !all) return { why: why ?? "" };
  return { lines: painted.flatMap(({ name, place, box }) => {
    const shift = ALIGNED[to](box, all), dx = nearest(shift.dx), dy = nearest(shift.dy);
    return dx || dy ? [`move ${name} ${place} ${dx} ${dy}`] : [];
  }) };
}

export const arranging = { turn, array, align };

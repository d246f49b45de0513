// One picked item with other points: it is deleted, and inserted again at the same place of its list, in one group.

import { tooLong } from "./arranging.js";

/** @param {Machine.State} state @param {Machine.EditOf<"reshape">} gesture @returns {Machine.Outcome} */
export function reshape({ picked, steps }, { was, words }) {
  const [item] = picked;
  if (steps.group) return { why: "A group is open: end it first." };
  if (!item || picked.length !== 1 || item.words !== was) return { why: "What was picked is another by now, so nothing was done." };
  if (words === null) return { why: "No arc goes through these points, so nothing was done." };
  if (words === was) return { lines: [] };
  const { name, place } = item, lines = [`delete ${name} ${place}`, `insert ${name} ${place} ${words}`];
  return tooLong(lines) ?? { lines, places: [{ name, place }] };
}

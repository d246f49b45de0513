// A whole layer moved, turned or mirrored: a group of lines, one step of undo. What stands in its way is told before.

import { boxOf, joined, middleFor, plural, shifted, turned } from "../board/index.js";
import { applied } from "./grouped.js";
import { layerOf } from "./state.js";
import { settle } from "./settling.js";
import { tooLong } from "./arranging.js";

// So many items of a layer are changed at once: each is a line of the script, and two where the layer is turned.
export const MOST = 20000;

// Why nothing of it can be done to a layer; null where it can.
/** @param {Machine.State} state @param {Machine.Layer | null} layer */
function whyNot({ steps }, layer) {
  if (!layer) return "No layer is chosen.";
  if (steps.group) return "A group is open: end it first.";
  if (!layer.items) return `${layer.label} has no items.`;
  return layer.items > MOST ? `${layer.label} has ${plural(layer.items, "item")}, and one step changes ${MOST.toLocaleString("en")} at most.` : null;
}

// The middle of a turn, as `middleFor` has it, and the turn about it. Where that is the board's zero point nothing is rounded.
/** @param {Machine.Whole} whole @param {Machine.LayerChange} change */
function middleOf({ box, all }, { turn, about }) {
  return about === "zero" ? { x: 0, y: 0 } : middleFor(about === "all" ? all : box, turn);
}

/** @param {string} name @param {string[]} items @param {Machine.LayerChange} change */
const movedLines = (name, items, { dx, dy }) => dx || dy ? items.map((_, place) => `move ${name} ${place} ${dx} ${dy}`) : [];

// Each item is deleted, and inserted at the same place as it is after the turn, the last one first.
/** @param {string} name @param {Machine.Whole} whole @param {Machine.LayerChange} change */
function turnedLines(name, whole, change) {
  const middle = middleOf(whole, change), { turn, dx, dy } = change;
  return whole.items.flatMap((words, place) => {
    const made = turned(words, turn, middle);
    return made === null ? [] : [[`delete ${name} ${place}`, `insert ${name} ${place} ${shifted(made, dx, dy)}`]];
  }).reverse().flat();
}

/** @type {Machine.Kind<"whole">} */
export const whole = {
  begin(turn, { name }) {
    const layer = layerOf(turn.state, name), why = whyNot(turn.state, layer);
    if (why) {
      turn.say(why, true);
      return turn.finish();
    }
    return turn.ask({ stage: "items" }, { kind: "whole", name, names: turn.state.layers.map((other) => other.name) });
  },
  heard: {
    items(turn, { name, id }, { items, own, boxes }) {
      const box = boxOf(own), layer = layerOf(turn.state, name);
      if (!box || !layer) {
        turn.say(`${layer?.label ?? name} paints nothing, so nothing of it moves.`, true);
        return turn.finish();
      }
      const all = joined(boxes.map(boxOf)) ?? box, repeats = items.filter((words) => words.startsWith("repeat")).length;
      turn.work({ stage: "asking", whole: { items, box, all } });
      return turn.question({ kind: "whole", gesture: id, label: layer.label, isDrill: layer.kind === "drill", count: items.length, repeats, box, all });
    },
    asking(turn, { name }, { value, why, change }, { whole: found }) {
      if (value !== "yes" || why || !change) {
        turn.say(value === "yes" ? why ?? "" : "", value === "yes");
        return turn.finish();
      }
      const lines = change.turn === "r0" ? movedLines(name, found.items, change) : turnedLines(name, found, change), long = tooLong(lines);
      if (long || !lines.length) {
        turn.say(long?.why ?? "", Boolean(long));
        return turn.finish();
      }
      return turn.apply({ stage: "lines", isGroup: lines.length > 1, lines, places: null, changes: null }, lines.map((line) => ({ line })));
    },
    lines: (turn, gesture, answer, at) => applied(turn, answer, at, (entries, then) => settle(turn, entries, { ...then, left: null })),
  },
};

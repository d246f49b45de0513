// Which items a layer takes: flashes, draws, arcs and regions go into Gerber layers, hits and routs into drill layers.

import { drawingTools } from "./drawing_tools.js";
import { layerOf } from "./state.js";

const WORDS = { gerber: "a Gerber layer", drill: "a drill layer" };

/** @param {string} words @returns {Board.LayerKind} */
const kindOf = (words) => /^(?:hit|rout)\b/.test(words) ? "drill" : "gerber";

// Why items of these words do not go into the chosen layer; null where they do, or where none is chosen.
/** @param {Machine.State} state @param {string[]} items */
export function whyNotInto(state, items) {
  const layer = layerOf(state, state.active), other = layer && items.find((words) => kindOf(words) !== layer.kind);
  if (!other) return null;
  const [word] = other.split(" ");
  return `A ${word} goes into ${WORDS[kindOf(other)]}, and ${layer.label} is ${WORDS[layer.kind]}: choose another in the list.`;
}

// Why a tool can't work in the chosen layer; null where it can.
/** @param {Machine.State} state @param {string} name */
export const whyNoTool = (state, name) => drawingTools[name] ? whyNotInto(state, [name]) : null;

// The layer that is drawn into once items are picked: that of the last one, if it takes what the one before took.
/** @param {Machine.State} state @param {Machine.Place | undefined} last */
export function activeAfter(state, last) {
  const before = layerOf(state, state.active), after = last && layerOf(state, last.name);
  return after && (!before || before.kind === after.kind) ? after.name : state.active;
}

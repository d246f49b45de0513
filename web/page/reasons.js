// Why a command cannot be done now, in a sentence; null where it can. The table of commands names one of these for each command that
// has any.

import { drawingTools, whyNoTool } from "../machine/index.js";

/** @param {Machine.State} state */
export const noLayer = ({ layers }) => layers.length ? null : "No layer is open.";

/** @param {Machine.State} state */
export const nothingOpen = ({ layers, opened }) => layers.length + opened.length ? null : "Nothing is open.";

/** @param {Machine.State} state */
export const nothingPicked = ({ picked }) => picked.length ? null : "Nothing is picked.";

/** @param {Machine.State} state @param {unknown[]} steps @param {string} words */
const noStep = ({ steps: { group } }, steps, words) => group ? "A group is open." : steps.length ? null : words;

/** @param {Machine.State} state */
export const nothingDone = (state) => noStep(state, state.steps.done, "Nothing is there to undo.");

/** @param {Machine.State} state */
export const nothingUndone = (state) => noStep(state, state.steps.undone, "Nothing is there to redo.");

/** @param {Machine.State} state */
export const nothingToCompare = (state) => state.comparison ? null
  : noStep(state, state.steps.done, "Nothing was done that the board could be compared with.");

/** @param {string} name @returns {(state: Machine.State) => string | null} */
export const noTool = (name) => (state) => drawingTools[name] && noLayer(state) || whyNoTool(state, name);

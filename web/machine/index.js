// The floor of the machine: what the page knows, and what becomes of it. `step(state, event)` is the next state, with lines for
// the station and messages to the worker, the journal and the page.
//
// It is not the page: it is pure, waits for nothing, and knows no element and no browser. (What numbers of refusals mean is handed
// to it once, by `knowRefusals`.)
//
// State, events, gestures and messages are in types.d.ts, by kinds; the stages of a gesture that is under way, for as long as its
// answers take, are in work.d.ts. Others wait for it.
//
//     import { firstState, step } from "./index.js";
//     const { state, messages } = step(firstState(), { kind: "say", text: "A board." });
//     state.said; // { text: "A board.", isFault: false }
//     messages; // []

export { askingAlike } from "./asking.js";
export { filesOf, losses } from "./attributes.js";
export { FOUND } from "./comparing.js";
export { fromElsewhere } from "./copied.js";
export { drawingTools } from "./drawing_tools.js";
export { whyNoTool } from "./drawn_into.js";
export { FUNCTIONS, fieldsOf } from "./functions.js";
export { handlesOf, reshaped } from "./handles.js";
export { makingOf } from "./immediate.js";
export { looksOfState, waitingOf } from "./keeping.js";
export { platingOf } from "./plating.js";
export { knowRefusals, refusalWords } from "./refusal_words.js";
export { SCRIPT_SAVED, choices } from "./showing.js";
export {
  DEPTH, drawnLayers, firstState, isBlank, isIdle, isMadeShown, isOpening, layerOf, scriptText, sessionOf, shownLayers,
  waitsForStation,
} from "./state.js";
export { pileSeen } from "./seen_pile.js";
export { step } from "./step.js";
export { firstWord, wordsOf } from "./steps.js";
export { tabled } from "./tables.js";
export { tellingOf } from "./telling.js";
export { MOST } from "./whole_layer.js";

/** @typedef {import("./steps.js").Steps} Steps */
/** @typedef {import("./turn.js").Turn} Turn */

// The lines of the script, played in a fresh station: when the page is opened again, or after the station stopped.

import { NO_STEPS, absorbed, plan } from "./replay.js";
import { DEPTH, bytesOf } from "./state.js";
import { Steps, firstWord, wordsOf } from "./steps.js";
import { lookOnly } from "./settling.js";
import { named } from "./named.js";
import { plural } from "../board/index.js";
import { readLater } from "./attributes.js";
import { withFunctions } from "./functions.js";
import { showIfAllHidden } from "./seeking.js";
import { loaded, taken } from "./taking.js";

/** @param {Machine.Turn<"replay">} turn @param {Machine.Replaying} at @returns {unknown} */
function sendRest(turn, at) {
  const { rest, steps } = at, { files } = turn.state, isSent = plan(rest, steps);
  if (!isSent.includes(true)) return finishRest(turn, { ...at, isSent }, []);
  return turn.apply({ stage: "lines", isGroup: false, ...at, isSent }, rest.filter((_, place) => isSent[place]).map(({ line, file }) =>
    ({ line, bytes: bytesOf(files, file) })));
}

/** @param {Machine.Turn<"replay">} turn @param {Machine.Replaying & { isSent: boolean[] }} at @param {Machine.Applied[]} answers */
function finishRest(turn, { rest, isSent, steps, made, spoiled }, answers) {
  const found = absorbed(rest, isSent, answers, steps);
  const now = { rest: found.rest, steps: found.steps, made: [...made, ...found.made], spoiled: [...spoiled, ...found.spoiled] };
  return found.rest.length ? sendRest(turn, now) : rebuild(turn, now);
}

// The document is now what these lines made.
/** @param {Machine.Turn<"replay">} turn @param {Machine.Replaying} at */
function rebuild(turn, { made, spoiled }) {
  const { state } = turn;
  const blank = { ...state, told: [], steps: new Steps(DEPTH), saved: named(), picked: [], hasWindow: false, entries: named(),
    attributes: named() };
  const parts = { ...taken(blank, made), ...loaded(blank, made) };
  const names = new Set(made.filter(({ line, reply }) => reply.startsWith("ok") && firstWord(line) === "load")
    .map(({ line }) => wordsOf(line)[1]));
  const layers = withFunctions(parts.layers.filter(({ name }) => names.has(name)), parts.steps);
  turn.set({ ...parts, picked: state.picked, layers,
    spoiled: [...state.spoiled, ...spoiled] });
  lookOnly(turn, state.picked, {}, { isSpoiled: spoiled.length > 0 });
}

/** @type {Machine.Kind<"replay">} */
export const replay = {
  begin(turn) {
    const { told } = turn.state;
    if (!told.length) return turn.finish();
    return sendRest(turn, { rest: told, made: [], spoiled: [], steps: NO_STEPS });
  },
  heard: { lines: (turn, gesture, { answers }, at) => finishRest(turn, at, answers) },
  // What was spoiled is kept as what it is now, so that it is left out the next time.
  end(turn, { isFitted, isAgain }, { isSpoiled }) {
    const { kept } = turn.state;
    if (isSpoiled && kept.isOpen && !kept.isLost) turn.first({ kind: "keep", isAnew: true });
    if (isFitted) turn.first({ kind: "fit" });
    if (!isAgain) showIfAllHidden(turn);
  },
  finished(turn, { isAgain }) {
    if (turn.state.told.length && !isAgain) turn.say(`Opened where you were: ${plural(turn.state.layers.length, "layer")}.`);
    if (!isAgain) turn.last({ kind: "seek" });
    readLater(turn);
  },
};

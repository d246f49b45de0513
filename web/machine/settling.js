// The end of a gesture's lines: they are handed over to be kept, the station is looked at, and then the document, what is
// picked and the panels' part become what they are now, all at once.

import { isChange, loaded, lookFor, seen, taken } from "./taking.js";
import { keep } from "./keeping.js";
import { layerOf } from "./state.js";
import { withFunctions } from "./functions.js";

// Lines with their replies; `then` says what is picked behind them, { picks }, what is kept with them, { isWaiting }, what came of
// the gesture, { result }, and what its end knows of it, { left }.
/**
 * @template {Machine.Gesture["kind"]} K
 * @param {Machine.Turn<K>} turn
 * @param {Machine.Told[]} entries
 * @param {{ picks?: Machine.Picked[], isWaiting?: boolean, result?: Machine.Result, left: Machine.LeftOf<K> }} then
 */
export function settle(turn, entries, then) {
  const after = taken(turn.state, entries), { picks = after.picked, isWaiting = false, result = null, left } = then;
  turn.work({ stage: "settling", entries, after, picks, isKept: true, isSeen: false, result, left });
  if (keep(turn, { entries, isWaiting })) turn.settling({ isKept: false });
  const isChanged = entries.some(({ line, reply }) => reply.startsWith("ok") && isChange(line)) || then.picks;
  if (isChanged && turn.state.station.isOpen) look(turn, { ...turn.state, ...after, ...loaded(turn.state, entries) }, picks);
  else see(turn, null);
}

// Looks at the station alone.
/**
 * @template {Machine.Gesture["kind"]} K
 * @param {Machine.Turn<K>} turn
 * @param {Machine.Picked[]} picks
 * @param {Partial<Machine.State>} changes
 * @param {Machine.LeftOf<K>} left
 */
export function lookOnly(turn, picks, changes, left) {
  turn.set(changes);
  turn.work({ stage: "settling", entries: [], after: {}, picks, isKept: true, isSeen: false, result: null, left });
  if (turn.state.station.isOpen) look(turn, turn.state, picks);
  else see(turn, null);
}

/** @param {Machine.Turn} turn @param {Machine.State} state @param {Machine.Picked[]} picks */
function look(turn, state, picks) {
  const active = state.active ?? (layerOf(state, "top") ?? state.layers.at(-1))?.name ?? null;
  turn.send({ to: "worker", number: turn.underWay.number, ...lookFor({ ...state, active }, picks) });
}

// What the station was seen to be; null where it was not looked at.
/** @param {Machine.Turn} turn @param {Machine.Looked | null} looked */
export function see(turn, looked) {
  const { work } = turn.state;
  if (work?.stage !== "settling") return;
  const { entries, after, picks } = work;
  turn.set({ ...after, ...loaded(turn.state, entries) });
  if (entries.length) turn.set({ layers: withFunctions(turn.state.layers, turn.state.steps) });
  turn.set(looked ? seen(turn.state, picks, looked) : { picked: picks });
  turn.settling({ isSeen: true, entries: [] });
}

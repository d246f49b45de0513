// What is handed to the browser to be kept, and what is known of whether it is.

import { askedFiles } from "./asking.js";
import { bytesOf } from "./state.js";

// What is still to be done when the page is opened again: files on their way into the station, those that were refused,
// with the questions about them, and the pictures beside the layers.
/** @param {Machine.State} state @returns {Machine.Waiting} */
export function waitingOf({ queue, work, refused, opened, questions, next }) {
  const isUnderWay = work && !["settling", "kept"].includes(work.stage);
  // (pictures of the board inside the page come with that)
  const waiting = [...isUnderWay ? [work.gesture] : [], ...queue].filter((gesture) => gesture.isGiven
    || ["load", "opened"].includes(gesture.kind) || gesture.kind === "picture" && !gesture.isInside);
  const asked = askedFiles({ questions });
  return {
    gestures: waiting.map(({ id, ...gesture }) => gesture), next,
    refused: refused.map((entry) => ({ ...entry, isAsked: asked.get(entry.id) ?? entry.isPending === true })),
    pictures: opened.filter(({ isInside }) => !isInside).map(({ file, label, of, window, colour, opacity, isShown }) =>
      ({ file, label, of, window, colour, opacity, isShown })),
  };
}

// How the page looks, as it is kept beside the lines.
/** @param {Machine.State} state */
export const looksOfState = ({ grid, unit, active, polarity, turn, direction, layers, job, made, checks, isOutlined }) => ({
  grid, unit, active, polarity, turn, direction, job, made, checks, isOutlined,
  layers: layers.map(({ name, kind, label, colour, opacity, isShown, height, file, origin, shows, by }) =>
    ({ name, kind, label, colour, opacity, isShown, height, file, origin, shows, by })),
});

// A file with its number, as it is kept; none where there is none of that number.
/** @param {Machine.State} state @param {string} id @returns {[id: string, bytes: Uint8Array][]} */
const fileOf = ({ files }, id) => {
  const bytes = bytesOf(files, id);
  return bytes ? [[id, bytes]] : [];
};

/** @param {Machine.Keeping} kept */
const isWritten = ({ isOpen, isLost }) => isOpen && !isLost;

// The files that lines, refused files, pictures and what waits still need.
/** @param {Machine.State} state */
export function filesNeeded({ files, queue, told, refused, opened }) {
  /** @type {{ file?: string, files?: string[] }[]} */
  const all = [...told, ...refused, ...opened, ...queue];
  const needed = new Set(all.flatMap(({ file, files: several = [] }) => [file, ...several]));
  return Object.fromEntries(Object.entries(files).filter(([id]) => needed.has(id)));
}

// What was under way is over, and files of it were left closed: they are no part of the board, and what waits is kept without them.
/** @param {Machine.Turn} turn */
export function leaveClosed(turn) {
  const files = filesNeeded(turn.state), { kept } = turn.state;
  turn.set({ files, kept: { ...kept, files: kept.files.filter((id) => files[id]) } });
  turn.first({ kind: "keep" });
}

// The files of what waits that are still to be kept: they go with the next write that has what waits, and wait no longer.
/** @param {Machine.Turn} turn */
function filesOnWay(turn) {
  const { queue } = turn.state, files = queue.flatMap((gesture) => gesture.kind === "keep" ? gesture.files ?? [] : []);
  if (files.length) turn.set({ queue: queue.map((gesture) => gesture.kind === "keep" ? { ...gesture, files: [] } : gesture) });
  return files;
}

// Hands over the entries of a gesture, files, and what waits: all in one write, together with what could not be kept
// before. Answers whether that is under way.
/** @param {Machine.Turn} turn @param {{ entries?: Machine.Told[], files?: string[], isWaiting?: boolean }} what */
export function keep(turn, { entries = [], files = [], isWaiting = false }) {
  const { kept } = turn.state;
  if (!isWritten(kept)) return false;
  if (kept.isAnew) {
    keepAnew(turn, entries);
    return true;
  }
  const isAll = kept.isWaiting || isWaiting;
  const all = { records: entries.length ? [...kept.records, entries] : kept.records, isWaiting: isAll,
    files: [...kept.files, ...files, ...isAll ? filesOnWay(turn) : []] };
  turn.set({ kept: { ...kept, ...all } });
  if (!all.records.length && !all.files.length && !all.isWaiting) return false;
  const { state } = turn;
  turn.send({ to: "kept", kind: "keep", number: turn.underWay.number, from: kept.count, records: all.records,
    files: all.files.flatMap((id) => fileOf(state, id)), waiting: all.isWaiting ? waitingOf(state) : null });
  return true;
}

// Hands over all that there is, in place of what is kept; once more where that was not kept.
/** @param {Machine.Turn} turn @param {Machine.Told[]} entries */
export function keepAnew(turn, entries = []) {
  const { state } = turn, all = [...state.told, ...entries];
  turn.set({ kept: { ...state.kept, records: all.length ? [all] : [], files: [], count: 0, isWaiting: true, isAnew: true } });
  turn.send({ to: "kept", kind: "anew", number: turn.underWay.number, records: turn.state.kept.records,
    files: Object.entries(state.files).filter(([id]) => !id.startsWith("inside ")).map(([id, { bytes }]) => [id, bytes]),
    waiting: waitingOf(state) });
}

// The answers: all that was handed over is kept, or nothing of it. What was deleted meanwhile is not, though it was written.
/** @param {Machine.Turn} turn */
export function written(turn) {
  const { kept } = turn.state;
  if (kept.isLost && !kept.isAnew) return;
  turn.set({ kept: { ...kept, count: kept.count + kept.records.length, records: [], files: [],
    isWaiting: false, isAnew: false, why: null, isLost: false } });
}

/** @param {Machine.Turn} turn @param {Machine.Written} answer */
export function unwritten(turn, { why = "", isLost = false }) {
  const { kept } = turn.state;
  turn.set({ kept: { ...kept, why, isLost: kept.isLost || isLost } });
}

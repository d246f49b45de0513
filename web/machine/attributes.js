// What saving drops of what the files of layers say, told before anybody saves.

import { DEPTH, bytesOf } from "./state.js";
import { layerIn } from "./steps.js";

// The number of the file of each layer.
/** @param {Machine.State} state */
export const filesOf = ({ told }) => new Map(told.flatMap(({ line, reply, file }) =>
  reply.startsWith("ok") && file !== undefined ? [/** @type {const} */ ([layerIn(line), file])] : []));

/** @param {Machine.State} state */
const unknown = (state) => [...new Set(filesOf(state).values())].flatMap((id) => {
  const bytes = bytesOf(state.files, id);
  return bytes && !state.dropped[id] ? [{ id, bytes }] : [];
});

// Has the files read of which that is not known, when nothing else waits.
/** @param {Machine.Turn} turn */
export function readLater(turn) {
  if (unknown(turn.state).length && !turn.state.queue.some(({ kind }) => kind === "dropped")) turn.last({ kind: "dropped" });
}

/** @type {Machine.Kind<"dropped">} */
export const dropped = {
  begin(turn) {
    const files = unknown(turn.state);
    return files.length ? turn.ask({ stage: "dropped" }, { kind: "dropped", files }) : turn.finish();
  },
  heard: {
    dropped(turn, gesture, { files }) {
      turn.set({ dropped: { ...turn.state.dropped, ...Object.fromEntries(files.map(({ id, words }) => [id, words])) } });
      turn.finish();
    },
  },
};

// What saving these layers drops: [{ name, label, words }] of those that lose something.
/** @param {Machine.State} state @param {Machine.Layer[]} layers */
export function losses(state, layers) {
  const files = filesOf(state);
  return layers.map(({ name, label }) => ({ name, label, words: state.dropped[files.get(name) ?? ""] ?? [] }))
    .filter(({ words }) => words.length);
}

// The lines that the worker carries what is said through, with the files of loads.
/** @param {Machine.State} state @returns {Pick<Machine.Asked["withAttributes"], "depth" | "entries"> & { kind: "withAttributes" }} */
export const carriedLines = ({ told, files }) => ({ kind: "withAttributes", depth: DEPTH,
  entries: told.filter(({ reply }) => reply.startsWith("ok")).map(({ line, file }) => ({ line, bytes: bytesOf(files, file) })) });

// Questions about refused files: one for each kind of file, however many there are.

import { openingOf } from "./state.js";

/** @param {Machine.Question} question */
const concerned = (question) => "refused" in question ? [question.refused].flat() : [];

// The files that are asked about already, each with the number of its question.
/** @param {Pick<Machine.State, "questions">} state */
export const askedFiles = ({ questions }) => new Map(questions.flatMap((question) =>
  concerned(question).map((file) => [file, question.id])));

/** @param {Machine.Turn} turn @param {Machine.Refused[]} entries @param {number | undefined} opening */
export function askAbout(turn, entries, opening) {
  for (const kind of ["gerber", "drill"]) {
    const ids = entries.filter(({ layer }) => layer.kind === kind).map(({ id }) => id);
    const [id] = ids;
    if (ids.length > 1) turn.question({ kind: "convertAll", refused: ids, opening });
    else if (id !== undefined) turn.question({ kind: "convert", refused: id, opening });
  }
}

// Asks about the files of an opening that can be converted, once each of its files was loaded or tried.
/** @param {Machine.Turn} turn @param {number | undefined} opening */
export function askWhenTried(turn, opening) {
  const { refused } = turn.state, its = openingOf(turn.state, opening);
  if (its && (its.trying > 0 || !its.isDone)) return;
  /** @param {Machine.Refused} entry */
  const isOf = (entry) => entry.opening === opening && entry.isPending;
  turn.set({ refused: refused.map((entry) => isOf(entry) ? { ...entry, isPending: false } : entry) });
  askAbout(turn, refused.filter(isOf), opening);
}

// What refused files that are to be answered for together have in common: their kind, and the choices that they ask for;
// null where a file asks for none.
/** @param {Machine.Refused} entry */
export const askedBy = ({ layer, offer }) => offer?.asks?.length ? `${layer.kind} ${offer.asks.join(" ")}` : null;

// The files that ask for the same, where there are several: [{ key, kind, asks, entries }].
/** @param {Machine.State} state */
export function askingAlike({ refused }) {
  /** @type {Map<string, Machine.Refused[]>} */
  const groups = new Map();
  for (const entry of refused) {
    const key = askedBy(entry);
    if (key !== null) groups.set(key, [...groups.get(key) ?? [], entry]);
  }
  return [...groups].flatMap(([key, entries]) => {
    const [first] = entries;
    return first?.offer && entries.length > 1 ? [{ key, kind: first.layer.kind, asks: first.offer.asks, entries }] : [];
  });
}

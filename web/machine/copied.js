// What was copied, to be pasted into any layer of any board: an item's words with the definition of its aperture or tool, since the
// same number may be another one there.

import { filesOf } from "./attributes.js";
import { itemOf, renumbered } from "../board/index.js";
import { layerOf } from "./state.js";

/** @param {Machine.Picked} item */
const isRepeat = (item) => item.words.startsWith("repeat");

/** @param {Board.Entry[] | undefined} entries @param {number | null | undefined} number */
const entryOf = (entries, number) => entries?.find((entry) => entry.number === number) ?? null;

// A layer by its name and its file: another file may be loaded under the name of a layer that was closed.
/** @param {Map<string, string>} files @param {string} name */
const originOf = (files, name) => `${name} ${files.get(name) ?? ""}`;

// What is picked, but for repeats, which no line inserts.
/** @param {Machine.State} state @returns {Machine.Copied[]} */
export function copiedOf(state) {
  const { picked, entries } = state, files = filesOf(state);
  return picked.filter((item) => !isRepeat(item)).map(({ name, words }) => {
    const entry = entryOf(entries[name], itemOf(words)?.number);
    return { words, from: originOf(files, name), definition: entry?.definition ?? null, entry: entry?.words ?? "" };
  });
}

// What was copied in another board: none of its layers is one of this.
/** @param {Machine.Copied[]} copied */
export const fromElsewhere = (copied) => copied.map((item) => ({ ...item, from: null }));

// The number of the entry that has a definition: the same number where that is it, else the first one.
/** @param {Board.Entry[]} entries @param {number} number @param {string} definition */
const numberOf = (entries, number, definition) => entryOf(entries, number)?.definition === definition ? number
  : entries.find((entry) => entry.definition === definition)?.number ?? null;

// The words of a copied item as a layer has them; null where it has no such aperture or tool. (What a block paints is defined by
// numbers of its own layer.)
/** @param {Machine.Copied} item @param {string} into the layer that it goes into @param {Board.Entry[]} entries */
function wordsIn({ words, from, definition, entry }, into, entries) {
  const number = itemOf(words)?.number ?? null;
  if (from === into || number === null) return words;
  const found = definition === null || entry === "block" ? null : numberOf(entries, number, definition);
  return found === null ? null : renumbered(words, found);
}

// The words of what was copied, as the chosen layer has them; or why it has none.
/** @param {Machine.State} state @param {Machine.Copied[]} copied @returns {{ words: string[] } | { why: string }} */
export function wordsInto(state, copied) {
  const layer = layerOf(state, state.active), words = [];
  if (!layer) return { why: "Choose a layer for the item first." };
  const entries = state.entries[layer.name] ?? [], into = originOf(filesOf(state), layer.name);
  for (const item of copied) {
    const own = wordsIn(item, into, entries);
    if (own === null) {
      return { why: `${layer.label} has no ${layer.kind === "drill" ? "tool" : "aperture"} like that of what was copied: ${
        item.entry || "one that is not known"}.` };
    }
    words.push(own);
  }
  return { words };
}

// Edits by hand, as lines of the script for what is picked when their turn comes. What is done to several items is a group.

import { Making } from "./drawing_tools.js";
import { arranging } from "./arranging.js";
import { whyNotInto } from "./drawn_into.js";
import { fieldsOf } from "./functions.js";
import { layerOf } from "./state.js";
import { reshape } from "./reshaping.js";
import { shifted } from "../board/index.js";
import { wordsInto } from "./copied.js";

/** @param {Machine.Picked} item */
const isRepeat = (item) => item.words.startsWith("repeat");

/** @param {Machine.State} state @param {(item: Machine.Picked) => string} line @returns {Machine.Outcome} */
const each = ({ picked }, line) => ({ lines: picked.map(line) });

// Items at the end of the active layer, and then they are picked.
/** @param {Machine.State} state @param {string[]} items @returns {Machine.Outcome} */
function insertAll(state, items) {
  const layer = layerOf(state, state.active);
  if (!layer) return { why: "Choose a layer for the item first." };
  const why = whyNotInto(state, items);
  if (why) return { why };
  const first = layer.items;
  return { lines: items.map((words, at) => `insert ${layer.name} ${first + at} ${words}`),
    places: items.map((_, at) => ({ name: layer.name, place: first + at })) };
}

// The words of an item that was drawn: with the aperture of the layer that is the active one now, if it is another one.
/** @param {Machine.State} state @param {Machine.EditOf<"insert">} gesture */
function drawnWords(state, { words, active, again }) {
  if (!again || active === state.active) return words;
  const { tool, settings, making, last } = again;
  const made = new Making(tool, { ...settings, entry: state.entry ?? 0 }, making ?? {});
  return last ? made.add(last, last.isCentre) : made.end();
}

/** @param {Machine.State} state @param {Machine.EditOf<"paste">} gesture @returns {Machine.Outcome} */
function paste(state, { dx, dy }) {
  if (!state.copied.length) return { why: "Nothing was copied." };
  const copied = state.copied.map((item) => ({ ...item, words: shifted(item.words, dx, dy) }));
  const other = whyNotInto(state, copied.map(({ words }) => words)), found = other ? { why: other } : wordsInto(state, copied);
  const made = "why" in found ? found : insertAll(state, found.words);
  return "why" in made ? made : { ...made, changes: { copied } };
}

// One picked item to another place of its layer's list, or so many places on.
/** @param {Machine.State} state @param {Machine.EditOf<"reorder">} gesture @returns {Machine.Outcome} */
function reorder(state, gesture) {
  const [item] = state.picked, layer = item && layerOf(state, item.name);
  if (!item || !layer) return { lines: [] };
  const place = Math.max(0, Math.min(gesture.by === undefined ? gesture.to : item.place + gesture.by, layer.items - 1));
  return { lines: place === item.place ? [] : [`reorder ${item.name} ${item.place} ${place}`] };
}

// From the last place to the first, so that each is where it was when its turn comes.
/** @param {Machine.State} state */
const remove = ({ picked }) => ({ lines: picked.slice().sort((one, other) => other.place - one.place)
  .map(({ name, place }) => `delete ${name} ${place}`) });

/** @param {Machine.Steps} steps */
const inGroup = ({ group }) => group ? { why: "A group is open: end it first." } : null;

// Of each verb its lines, with the places that are picked behind them, and what else changes; or why there are none.
/** @type {{ [V in keyof Machine.Verbs]: (state: Machine.State, gesture: Machine.EditOf<V>) => Machine.Outcome }} */
const verbs = {
  move: (state, { dx, dy }) => dx || dy ? each(state, ({ name, place }) => `move ${name} ${place} ${dx} ${dy}`) : { lines: [] },
  delete: remove,
  polarity: ({ picked }, { value }) => ({ lines: picked.filter((item) => !isRepeat(item))
    .map(({ name, place }) => `polarity ${name} ${place} ${value}`) }),
  aperture: (state, { number }) => each(state, ({ name, place }) => `aperture ${name} ${place} ${number}`),
  tool: (state, { number }) => each(state, ({ name, place }) => `tool ${name} ${place} ${number}`),
  diameter: (_, { name, number, nm }) => ({ lines: [`diameter ${name} ${number} ${nm}`] }),
  reorder,
  insert(state, gesture) {
    const words = drawnWords(state, gesture);
    return words === null ? { lines: [] } : insertAll(state, [words]);
  },
  paste,
  ...arranging,
  reshape,
  setattr: (_, { name, key, fields }) => ({ lines: [`setattr ${name} ${key}${fields ? ` ${fields}` : ""}`] }),
  function: ({ layers }, { name, shows }) =>
    ({ lines: [`setattr ${name} .FileFunction ${fieldsOf(shows, layers.filter((layer) => layer.name !== name))}`] }),
  dropattr: (_, { name, key }) => ({ lines: [`dropattr ${name} ${key}`] }),
  undo: ({ steps }) => inGroup(steps) ?? { lines: steps.done.length ? ["undo"] : [] },
  redo: ({ steps }) => inGroup(steps) ?? { lines: steps.undone.length ? ["redo"] : [] },
};

// Whether what is picked is still what a gesture was begun with: the picks that it names, or any where it names none.
/** @param {Machine.State} state @param {Machine.Edit} gesture */
const isOf = ({ picked }, { of }) => !of || of.length === picked.length && of.every((id, at) => picked[at]?.id === id);

/** @param {Machine.State} state @param {Machine.Edit} gesture @returns {Machine.Outcome} */
export function linesOf(state, gesture) {
  const make = /** @type {(state: Machine.State, gesture: Machine.Edit) => Machine.Outcome} */ (verbs[gesture.verb]);
  return isOf(state, gesture) ? make(state, gesture) : { why: "What was picked is another by now, so nothing was done." };
}

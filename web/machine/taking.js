// What accepted lines make of the document, and what is asked of the station behind them.

import { boxOf, entriesFrom } from "../board/index.js";
import { firstWord, isEdit, layerIn, wordsOf } from "./steps.js";
import { named } from "./named.js";
import { pairs } from "./pairs.js";
import { PLAIN, layerOf } from "./state.js";
import { byFile } from "./functions.js";
import { follow } from "./places.js";

const CHANGING_ENTRIES = new Set(["diameter", "undo", "redo", "abort", "load"]);
const CHANGING_ATTRIBUTES = new Set(["setattr", "dropattr", "undo", "redo", "abort"]);
const LOOKING = new Set(["plot", "write", "redraw", "list", "window"]);

/** @param {Machine.Told} entry */
const isAccepted = ({ reply }) => reply.startsWith("ok");

// The layers with the one that a line has loaded.
/** @param {Machine.Layer[]} layers @param {Machine.Told} entry @returns {Machine.Layer[]} */
function withLoaded(layers, { line, layer = {} }) {
  const [, name = "", word] = wordsOf(line), before = layers.find((other) => other.name === name);
  /** @type {Board.LayerKind} */
  const kind = word === "drill" ? "drill" : "gerber";
  const base = byFile({ label: name, ...PLAIN, ...layer });
  const made = { items: 0, entries: 0, label: name, ...PLAIN, by: base, ...layer, ...before, base, name, kind };
  return [...layers.filter((other) => other.name !== name), made].sort((one, other) => one.height - other.height);
}

// What lines with their replies make of the script, the steps and the picks. Nothing but gestures changes these.
/** @param {Machine.State} state @param {Machine.Told[]} entries */
export function taken(state, entries) {
  const steps = state.steps.copy(), saved = named(state.saved), paths = named(state.paths);
  let { picked, hasWindow } = state, isStale = false, isOther = false;
  for (const entry of entries.filter(isAccepted)) {
    const { line, isSave, path, file } = entry, word = firstWord(line);
    picked = follow(picked, line, steps);
    steps.take(line);
    if (path && file !== undefined) paths[path] = file;
    if (isSave) saved[layerIn(line)] = steps.at;
    hasWindow ||= word === "window";
    isStale ||= CHANGING_ENTRIES.has(word);
    isOther ||= CHANGING_ATTRIBUTES.has(word);
  }
  return { told: [...state.told, ...entries], steps, saved, paths, picked, hasWindow,
    entries: isStale ? named() : state.entries, attributes: isOther ? named() : state.attributes, unsaved: steps.unsaved(saved) };
}

// What they make of the layers and of a comparison, which a person changes meanwhile.
/** @param {Machine.State} state @param {Machine.Told[]} entries */
export function loaded({ layers, comparison }, entries) {
  const accepted = entries.filter(isAccepted), isChanged = accepted.some(({ line }) => !LOOKING.has(firstWord(line)));
  return { layers: accepted.filter(({ line }) => firstWord(line) === "load").reduce(withLoaded, layers),
    comparison: isChanged ? null : comparison };
}

// What the station is asked behind the lines of a gesture: all that the panels show of it.
/** @param {Machine.State} state @param {Machine.Picked[]} picked @returns {{ kind: "look" } & Machine.Asked["look"]} */
export function lookFor({ layers, active, entries, attributes, list }, picked) {
  const layer = layerOf({ layers }, active);
  const names = [...new Set([...layer ? [layer.name] : [], ...picked.map(({ name }) => name)])].filter((name) => layerOf({ layers }, name));
  return {
    kind: "look", places: picked.map(({ name, place }) => ({ name, place })), entries: names.filter((name) => !entries[name]),
    attributes: layer?.kind === "gerber" && !attributes[layer.name] ? layer.name : null,
    list: list.isOpen && layer ? { name: layer.name, from: list.from } : null,
  };
}

// The parts of the state that such a look tells; what is picked and not there any more is let go.
/** @param {Machine.State} state @param {Machine.Picked[]} picked @param {Machine.Looked} looked */
export function seen(state, picked, { layers: lines, items, entries, attributes, list }) {
  const told = new Map(lines.map((line) => line.split(" ")).map(([name = "", , count, kinds]) =>
    /** @type {const} */ ([name, { items: Number(count), entries: Number(kinds) }])));
  const layers = state.layers.map((layer) => {
    const now = told.get(layer.name) ?? layer;
    return now.items === layer.items && now.entries === layer.entries ? layer : { ...layer, ...now };
  });
  const found = pairs(picked, items).flatMap(([pick, item]) => item ? [{ ...pick, words: item.words, box: boxOf(item.box) }] : []);
  const active = state.active ?? (layerOf(state, "top") ?? state.layers.at(-1))?.name ?? null;
  const known = named(state.entries);
  for (const [name, its] of Object.entries(entries)) known[name] = entriesFrom(its);
  const numbers = known[active ?? ""];
  const entry = numbers && !numbers.some(({ number }) => number === state.entry) ? numbers[0]?.number ?? null : state.entry;
  return {
    layers, active, entry, entries: known, picked: isSamePicks(found, state.picked) ? state.picked : found,
    attributes: attributes ? named(state.attributes, { [attributes.name]: attributes.lines }) : state.attributes,
    list: list ? { ...state.list, ...list } : state.list,
  };
}

/** @param {Board.Box | null} one @param {Board.Box | null} other */
const isSameBox = (one, other) => one === other || one !== null && other !== null
  && one.left === other.left && one.low === other.low && one.right === other.right && one.high === other.high;

/** @param {Machine.Picked[]} one @param {Machine.Picked[]} other */
const isSamePicks = (one, other) => one.length === other.length && pairs(one, other).every(([pick, like]) => pick.id === like.id
  && pick.place === like.place && pick.words === like.words && isSameBox(pick.box, like.box));

/** @param {string} line */
export const isChange = (line) => isEdit(line) || ["undo", "redo", "abort", "load"].includes(firstWord(line));

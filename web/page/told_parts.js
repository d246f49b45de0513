// An item in words, as parts of a panel: what it is, what the file says of it, what it shares with others, and the station's line.

import { button, element } from "./dom.js";
import { short } from "../board/index.js";

// So many letters of an item's words are shown: all of most items, and of a long region what its panel has room for.
const MOST_WORDS = 600;
// What a small box tells of an item.
const FEW = new Set(["net", "nets", "component", "pin", "value", "object", "layer"]);

/**
 * Rows as a list of names and values.
 * @param {[name: string, value: string][]} rows
 */
export const rowsList = (rows) => element("dl", { className: "told" }, ...rows.flatMap(([name, value]) =>
  [element("dt", {}, name), element("dd", {}, short(value, MOST_WORDS))]));

/**
 * The parts of a small box.
 * @param {Machine.Words} words
 */
export const fewParts = ({ head, rows }) => [element("b", {}, short(head, MOST_WORDS)), rowsList(rows.filter(([name]) => FEW.has(name)))];

// The buttons of what an item shares: one lights all that shares it, the other picks it.
/** @param {Page.Runner} machine @param {Machine.State} state @param {Machine.Shared} of */
function sharedRow(machine, { lit }, of) {
  const isLit = lit?.of.kind === of.kind && lit.of.id === of.id, words = `all of the ${of.kind} ${of.text}`;
  return element("div", { className: "row shared", "data-row": `${of.kind} ${of.id}` }, element("span", { title: words }, words),
    button("light", () => machine.gesture({ kind: "light", of: isLit ? null : of }), { "aria-pressed": String(isLit), "aria-label": `light ${words}` }),
    button("pick", () => machine.gesture({ kind: "pickShared", of }), { "aria-label": `pick ${words}` }));
}

/**
 * What the panel of what is picked tells of one item.
 * @param {Page.Runner} machine
 * @param {Machine.State} state
 * @param {Machine.Picked} item
 * @returns {HTMLElement[]}
 */
export function toldParts(machine, state, item) {
  const { inWords } = state, told = inWords?.id === item.id ? inWords : null, words = told?.words;
  const line = element("details", { "data-row": "line" }, element("summary", {}, `${item.name} ${item.place}, as the station has it`),
    element("code", { className: "words" }, short(item.words, MOST_WORDS)));
  if (!words) return [element("h3", {}, `${item.name} ${item.place}`), ...told?.why ? [element("p", { className: "hint" }, told.why)] : [], line];
  // (words of what the item was a moment ago stay where they are, dimmed, so that nothing below them jumps)
  const isNow = words.line === item.words && told.unit === state.unit;
  return [element("div", { className: isNow ? "" : "was", "aria-busy": String(!isNow) }, element("h3", {}, short(words.head, MOST_WORDS)), rowsList(words.rows)),
    ...words.alike.map((of) => sharedRow(machine, state, of)), line];
}

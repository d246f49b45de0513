// Files that were refused: what is wrong with each, and how it can be converted under a person's choices, each change of
// which is shown before it is made.

import { button, byId, element, field, redraw } from "./dom.js";
import { CHOICES } from "../convert/index.js";
import { Converter } from "./converter.js";
import { faultWords } from "./store.js";
import { refusalWords } from "../machine/index.js";

/**
 * A choice with its input; a way to read a file; and what a file is converted to first, by which choices.
 * @typedef {import("../convert/index.js").Choice & { input: HTMLInputElement | HTMLSelectElement }} Field
 * @typedef {{ choices: Page.Choices, words: string[] }} Way
 * @typedef {{ choices: Page.Choices, converted: Page.Converted }} First
 */

// So many refusals are told one by one, so that the choices stay in sight.
const SHOWN = 12;

// In files up to so many bytes the ways to convert them are looked for, each of which is a conversion: a large one is not converted
// several times for a question.
const FEW_BYTES = 2e6;

/** @type {Record<import("../convert/index.js").Choice["form"], (choice: import("../convert/index.js").Choice) => HTMLInputElement | HTMLSelectElement>} */
const INPUTS = {
  switch: () => element("input", { type: "checkbox" }),
  one: ({ values = [] }) => element("select", {}, element("option", { value: "" }, "as in the file"),
    ...values.map(([value, label]) => element("option", { value }, label))),
  text: ({ example }) => element("input", { type: "text", placeholder: example, spellcheck: false }),
  file: () => element("input", { type: "file" }),
};

// The choices for a kind of file, each with its input.
/** @param {Board.LayerKind} kind */
export const fieldsOf = (kind) => CHOICES[kind].map((choice) => ({ ...choice, input: INPUTS[choice.form](choice) }));

/** @param {Field[]} fields @param {Page.Choices} choices */
export function fill(fields, choices) {
  const given = new Map(Object.entries(choices));
  for (const { name, form, input } of fields) {
    if (form === "switch") Object.assign(input, { checked: given.get(name) ?? false });
    else if (form !== "file") input.value = String(given.get(name) ?? "");
  }
}

/** @param {Field["input"]} input */
async function valueOf(input) {
  if (!(input instanceof HTMLInputElement)) return input.value.trim();
  if (input.type === "checkbox") return input.checked;
  if (input.type !== "file") return input.value.trim();
  const [file] = input.files ?? [];
  return file ? { name: file.name, bytes: new Uint8Array(await file.arrayBuffer()) } : null;
}

/** @param {Field[]} fields @returns {Promise<Page.Choices>} */
export async function choicesOf(fields) {
  /** @type {Record<string, unknown>} */
  const choices = {};
  for (const { name, input } of fields) choices[name] = await valueOf(input);
  // (the fields are those of CHOICES, each with a value of its form)
  return /** @type {Page.Choices} */ (choices);
}

/** @param {string[]} lines @param {string} className */
function listOf(lines, className = "changes") {
  return element("ul", { className }, ...lines.map((line) => element("li", {}, line)));
}

// What comes of the choices, in words.
/** @param {Page.Converted} converted @param {string} kind */
function outcome(converted, kind) {
  if (converted === null) return [element("p", {}, "Nothing in it needs a change.")];
  if (!converted.refusals) return [element("p", {}, kind === "drill" ? "It is read so, and changed so:"
    : "These changes are made, and no others:"), listOf(converted.changes ?? [])];
  const { refusals } = converted;
  const more = refusals.length > SHOWN ? [`and ${refusals.length - SHOWN} more`] : [];
  return [element("p", { className: "fault" }, "So it cannot be converted:"), listOf([...refusals.slice(0, SHOWN), ...more])];
}

// The ways between which a person has to choose, where choices are asked for: a button for each, which makes its choices.
/** @param {Way[]} found @param {(choices: Page.Choices) => void} take @param {string} words */
export function waysOffered(found, take, words = "The file does not say how it is to be read. It can be read so:") {
  if (!found.length) return [];
  return [element("p", {}, words),
    element("div", { id: "ways", className: "row" }, ...found.map(({ choices, words }) => button(words.join(", "), () => take(choices))))];
}

// One tries files one after another, the other one converts for the question that is open.
const trying = new Converter();
export const asking = new Converter();

// What files that were tried are converted to first, by their bytes, so that a question does not wait for it once more.
/** @type {WeakMap<Uint8Array, Promise<First>>} */
const tried = new WeakMap();

// What they are converted to first; by this converter where that is not known yet.
/** @param {string} layer @param {Uint8Array} bytes @param {Converter} converter @returns {Promise<First>} */
export function firstOf(layer, bytes, converter = trying) {
  const known = tried.get(bytes);
  if (known) return known;
  const first = converter.call("first", { layer, bytes });
  if (converter === trying) {
    tried.set(bytes, first);
    first.catch(() => tried.delete(bytes));
  }
  return first;
}

/** @param {Uint8Array} bytes */
export const forgetFirst = (bytes) => tried.delete(bytes);

// The ways to read a file that asks for choices, where it can be read in several.
/** @param {string} layer @param {Uint8Array} bytes @param {unknown[]} asks @returns {Promise<Way[]>} */
export async function waysFor(layer, bytes, asks) {
  if (!asks.length || bytes.length > FEW_BYTES) return [];
  return asking.call("ways", { layer, bytes }).catch(() => []);
}

/** @param {unknown} fault */
export const stoppedWords = (fault) => `the conversion ended: ${faultWords(fault)}`;

// A file that is still refused, with its bytes.
/** @param {Machine.State} state @param {number} id */
export function refusedOf({ refused, files }, id) {
  const entry = refused.find((one) => one.id === id), file = entry && files[entry.file];
  if (!file) throw new Error("that file is not refused any more");
  return { ...entry, bytes: file.bytes };
}

// The part of a question that converts: what comes of the choices in its fields, told in `seen`.
class Conversion {
  /** @param {Board.LayerKind} kind @param {Uint8Array} bytes @param {Field[]} fields @param {Page.Allow} allow */
  constructor(kind, bytes, fields, allow) {
    this.kind = kind;
    this.bytes = bytes;
    this.fields = fields;
    this.allow = allow;
    /** @type {Page.Converted} */
    this.converted = null;
    this.turn = 0;
    this.seen = element("div", { "aria-live": "polite" });
  }

  // Shows what a promise of a conversion comes to, unless another one came behind it; that one, or null.
  /** @param {Promise<Page.Converted>} promised */
  async show(promised) {
    const mine = ++this.turn;
    this.converted = null;
    this.allow(false);
    this.seen.replaceChildren(element("p", { className: "working" }, "It is being converted .."));
    const found = await promised.catch((fault) => /** @type {Page.Converted} */ ({ refusals: [stoppedWords(fault)], asks: [] }));
    if (mine !== this.turn) return null;
    this.converted = found;
    this.seen.replaceChildren(...outcome(found, this.kind));
    this.allow(Boolean(found?.bytes));
    return found;
  }

  renew() {
    const { kind: layer, bytes } = this;
    return this.show(choicesOf(this.fields).then((choices) => asking.instead("converted", { layer, bytes, choices })));
  }

  // The ways to read the file, where it can be read in several.
  async ways() {
    return waysFor(this.kind, this.bytes, this.converted?.asks ?? []);
  }
}

// The question how a refused file is to be converted; its answer has the bytes that come of it. It can be left at any time.
/** @param {Machine.State} state @param {Machine.QuestionOf<"convert">} question @param {Page.Allow} allow @returns {Page.Dialogue} */
export function convertQuestion(state, question, allow) {
  const { layer, bytes, reply } = refusedOf(state, question.refused), { kind } = layer, fields = fieldsOf(kind), offered = element("div", {});
  const conversion = new Conversion(kind, bytes, fields, allow), renew = () => conversion.renew();
  const choose = element("details", { id: "choices" }, element("summary", {}, "Choices"),
    ...fields.map(({ label, input }) => field(label, input)));
  choose.onchange = choose.oninput = renew;
  conversion.show(firstOf(kind, bytes, asking).then(({ choices, converted }) => {
    if (conversion.turn === 1) fill(fields, choices);
    choose.open = !converted?.bytes;
    return converted;
  })).then(() => conversion.ways()).then((found) => offered.replaceChildren(...waysOffered(found, (choices) => {
    fill(fields, choices);
    renew();
  })));
  return {
    title: `Convert ${layer.fileName}?`, parts: [element("p", {}, refusalWords(reply, bytes, kind)), offered, choose, conversion.seen],
    choices: [["Convert and open", "yes"], ["Leave it out", "no"]],
    answer: () => ({ bytes: conversion.converted?.bytes ?? null }),
    end: () => {
      asking.stop();
      forgetFirst(bytes);
    },
  };
}

// Tries whether a refused file can be converted as it stands, and tells the machine; `isAble` is null where there is nothing
// to convert.
/** @param {Page.Runner} machine @param {number} id */
export function tryRefused(machine, id) {
  const { layer, bytes } = refusedOf(machine.state, id);
  /** @param {boolean | null} isAble @param {string} why @param {string[]} asks */
  const told = (isAble, why = "", asks = []) => machine.send({ kind: "tried", refused: id, isAble, why, asks });
  machine.await(firstOf(layer.kind, bytes).then(({ converted }) => {
    if (converted === null) told(null);
    else told(!converted.refusals, converted.refusals?.slice(0, 5).join("; "), converted.asks?.map(({ name }) => name));
  }, (fault) => told(false, stoppedWords(fault))));
}

/** @param {Page.Runner} machine @param {Machine.State} state @param {Machine.Refused} entry */
function row(machine, { files }, { id, layer, file, reply, isTried, offer, note }) {
  const its = files[file], words = its ? refusalWords(reply, its.bytes, layer.kind) : reply, { fileName } = layer;
  const convert = () => button("convert ..", () => machine.send({ kind: "offer", refused: id }),
    { "aria-label": `convert ${fileName}` });
  return element("li", { "data-row": id }, element("b", {}, fileName), ` ${words} `, ...offer ? [convert()] : [],
    ...offer && !offer.isAble ? [element("p", {}, `It cannot be converted as it stands: ${offer.why}`)] : [],
    ...isTried ? [] : [element("p", { className: "working" }, "It is tried whether it can be converted ..")],
    ...note ? [element("p", {}, note)] : []);
}

/** @param {Page.Runner} machine */
export function listenToRefused(machine) {
  machine.panel(({ refused }) => [refused], (state) => {
    redraw(byId("refused"), ...state.refused.map((entry) => row(machine, state, entry)));
    byId("refused-panel").hidden = state.refused.length === 0;
  });
}

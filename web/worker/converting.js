// Old and foreign files in the form that the station reads, by the modules of web/convert.

import { faultWords } from "./faults.js";
import {
  askedChoices, choiceWords, convertDrill, convertGerber, digitsOf, refusalText, toldChanges, toolOf, waysToConvert,
} from "../convert/index.js";

/**
 * What a person chooses for a conversion (web/convert/choices.js); what is not chosen is empty.
 * @typedef {object} Choices
 * @property {boolean} [nearest]
 * @property {boolean} [repeat]
 * @property {"mm" | "inch"} [unit]
 * @property {"single" | "multi"} [arcs]
 * @property {string} [format]
 * @property {"leading" | "trailing"} [zeros]
 * @property {string} [digits]
 * @property {string} [tools]
 * @property {{ name: string, bytes: Uint8Array } | null} [report]
 */
/**
 * What a file is converted to, with the changes, or why it is refused, with the choices that are asked for; null where it needs none.
 * @typedef {{ bytes: Uint8Array, changes: string[], refusals?: undefined, asks?: undefined } | Refused | null} Converted
 * @typedef {{ refusals: string[], asks: import("../convert/index.js").Choice[], bytes?: undefined, changes?: undefined }} Refused
 */

// A choice of a person that cannot be used.
class Unusable extends Error {}

/** @param {Uint8Array} bytes @param {Choices} choices */
function gerber(bytes, { nearest = false, repeat = false, unit, arcs, format, zeros }) {
  const digits = format ? digitsOf(format) : undefined;
  if (digits === null) throw new Unusable("the format: two digits are wanted, as 2.4");
  return convertGerber(bytes, { nearest, repeat, unit: unit || undefined, arcs: arcs || undefined, format: digits,
    zeros: zeros || undefined });
}

/** @param {Uint8Array} bytes @param {Choices} choices */
function drill(bytes, { unit, digits, zeros, tools = "", report = null }) {
  const chosen = digits ? digitsOf(digits) : null;
  if (digits && !chosen) throw new Unusable("digits: two are wanted, as 2:4");
  const sizes = tools.split(/[\s,;]+/).filter((word) => word).map((word) => {
    const tool = toolOf(word, `tool ${word}`);
    if (!tool) throw new Unusable(`tool ${word}: a number and a diameter are wanted, as 1=0.8mm`);
    return tool;
  });
  return convertDrill(bytes, { unit: unit || null, zeros: zeros || null, digits: chosen, tools: sizes, report });
}

// What the commands' options are called on the page.
const NAMES = new Map([["unit", "the unit"], ["digits", "the digits"], ["zeros", "the zeros"], ["report", "the report"], ["tool", "the diameter"],
  ["arcs", "the arcs"], ["nearest", "the nearest nm"], ["repeat", "the repeating of points"], ["format", "the format"]]);

/** @param {string} text */
const onPage = (text) => text.replace(/\(--\w+\)/g, "(chosen)").replace(/--(\w+)/g, (whole, name) => NAMES.get(name) ?? whole);

/** @param {Uint8Array} one @param {Uint8Array} other */
const isSame = (one, other) => one.length === other.length && one.every((byte, at) => byte === other[at]);

/** @param {Board.LayerKind} kind @param {string[]} texts @returns {Refused} */
const refused = (kind, texts) => ({ refusals: texts.map(onPage), asks: askedChoices(kind, texts) });

// What a file is converted to under a person's choices, as the options of tools/to_gerber and tools/to_xnc have them: its
// bytes with the changes that were made, of a drill file with how it was read too, or why it is refused, with the choices
// (of web/convert/choices.js) that the refusals ask for; null where it needs no change.
/** @param {Board.LayerKind} kind @param {Uint8Array} bytes @param {Choices} choices @returns {Converted} */
export function convertedOf(kind, bytes, choices = {}) {
  try {
    const made = kind === "drill" ? drill(bytes, choices) : gerber(bytes, choices);
    if (!made.bytes) return refused(kind, made.refusals.map(refusalText));
    if (isSame(made.bytes, bytes)) return null;
    return { bytes: made.bytes, changes: ("account" in made ? made.account : toldChanges(made.changes)).map(onPage) };
  } catch (fault) {
    return refused(kind, [faultWords(fault)]);
  }
}

// The ways to convert a file between which a person has to choose, as whether arcs without G74 and G75 are of one quadrant
// or of any angle: each with its choices, these in words, and what it comes to.
/** @param {Board.LayerKind} kind @param {Uint8Array} bytes */
export function waysOf(kind, bytes) {
  /** @type {Map<string, Converted>} */
  const known = new Map();
  /** @param {Choices} choices */
  const convertedBy = (choices) => {
    const key = JSON.stringify(choices), found = known.get(key), made = found === undefined ? convertedOf(kind, bytes, choices) : found;
    known.set(key, made);
    return made;
  };
  return waysToConvert((choices) => convertedBy(choices)?.asks ?? null)
    .map((choices) => ({ choices, words: choiceWords(kind, choices), converted: convertedBy(choices) }));
}

// The choices under which a file is offered first, with what comes of them: what can only be written to the nearest nanometre
// is told among the changes.
/** @param {Board.LayerKind} kind @param {Uint8Array} bytes */
export function firstOf(kind, bytes) {
  const plain = convertedOf(kind, bytes), choices = { nearest: true };
  const nearest = kind === "gerber" && plain?.refusals ? convertedOf(kind, bytes, choices) : null;
  return nearest?.bytes ? { choices, converted: nearest } : { choices: {}, converted: plain };
}

/** @param {Board.LayerKind} kind @param {Uint8Array} bytes */
export const firstChoices = (kind, bytes) => firstOf(kind, bytes).choices;

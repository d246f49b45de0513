/** What is written before the command that first needs it: a format, a unit, and G75. */

import { commandsFrom } from "./cut.js";
import { formOf, formOfOptions } from "./form.js";
import { UNIT_COMMANDS } from "./state.js";

const UNITS = /^(?:MO(MM|IN)$)|G(7[01])(?!\d)/;
const ANY_FORM = formOfOptions({ whole: 6, decimals: 6 }, "trailing");
const QUADRANTS = /G7[45](?!\d)/;
const OFFSETS = /[IJ][-+.0-9]/;
const SIGNED = /[IJ]-0*[1-9]/;
/** @typedef {import("./state.js").State} State */
/** @typedef {"mm" | "inch"} Unit */


/**
 * Where a file tells its unit, from the command on that the cutter stands at.
 * @param {State} state
 * @returns {{unit: Unit, line: number} | null}
 */
function toldUnit(state) {
  const { cutter, bytes } = state;
  for (const { text, line, isExtended } of commandsFrom(bytes, cutter.start, cutter.line)) {
    const found = UNITS.exec(text.toUpperCase());
    if (found !== null && isExtended === (found[1] !== undefined)) {
      return { unit: found[1] === "MM" || found[2] === "71" ? "mm" : "inch", line };
    }
  }
  return null;
}

/**
 * What is to be written before a length where no unit was told before it. Where the unit cannot be known, that is told
 * once, and all lengths are read as mm.
 * @param {import("./state.js").State} state
 * @returns {string[]} a command, or none
 */
export function missingUnit(state) {
  if (state.unit !== null || state.isUnitMissing) {
    return [];
  }
  const { options } = state;
  const told = toldUnit(state);
  if (options.unit) {
    return [written(state, options.unit, "as --unit gives it")];
  }
  if (told?.unit === "inch") {
    return [written(state, "inch", `as line ${told.line} gives it, too late for camplot`)];
  }
  state.isUnitMissing = true;
  state.refuse(told === null ? "a length before any unit: give --unit mm or --unit inch"
    : `a length before the unit, which is mm by line ${told.line}: give --unit mm where that holds here too`);
  return [];
}

/**
 * The format that a file has from the command on that the cutter stands at; null where it has none.
 * @param {State} state
 */
function toldForm(state) {
  const { cutter, bytes } = state;
  for (const { text, line, isExtended } of commandsFrom(bytes, cutter.start, cutter.line, true)) {
    const command = text.toUpperCase();
    if (isExtended && command.startsWith("FS")) {
      return { command, line, form: formOf(command) };
    }
  }
  return null;
}

/**
 * What is to be written before a coordinate where no format was told before it. Where no option gives one, that is told
 * once, and coordinates are read in some form.
 * @param {import("./state.js").State} state
 * @returns {string[]} a command, or none
 */
export function missingForm(state) {
  if (state.form !== null) {
    return [];
  }
  const { givenForm } = state;
  if (givenForm === null) {
    const told = toldForm(state);
    state.refuse(`a coordinate before the format (%FS..*%)${formAdvice(told)}`);
    state.tellForm(told?.form ?? ANY_FORM);
    return [];
  }
  state.tellForm(givenForm);
  state.change(`%${givenForm.target}*% is written before it, as --format gives it`);
  return [`%${givenForm.target}*%`];
}

/** @param {ReturnType<typeof toldForm>} told */
function formAdvice(told) {
  const choose = "choose RS-274X, or give the digits before and after the point as --format 2.4, with --zeros leading " +
    "where trailing zeros are left out";
  return told === null ? `: ${choose}`
    : `, which line ${told.line} has too late, as %${told.command}*%: ${told.form.options === "" ? "write it in front"
      : `give ${told.form.options} where that holds here too`}`;
}

/** @param {State} state @param {Unit} unit @param {string} why */
function written(state, unit, why) {
  state.tellUnit(unit);
  state.change(`${UNIT_COMMANDS[unit]} is written before it, ${why}`);
  return UNIT_COMMANDS[unit];
}

/**
 * What is to be written before the first offset of an arc where neither G74 nor G75 was told, in the whole file.
 * @param {import("./state.js").State} state
 * @param {string} word  the word that holds the offset
 * @returns {string[]} G75, or nothing
 */
export function missingQuadrants(state, word) {
  if (state.quadrants !== 0 || state.areQuadrantsSought || !OFFSETS.test(word)) {
    return [];
  }
  state.areQuadrantsSought = true;
  /** @type {{text: string, line: number} | null} */
  let signed = null;
  for (const { text, line, isExtended } of commandsFrom(state.bytes, state.cutter.start, state.cutter.line)) {
    const capitals = text.toUpperCase();
    if (!isExtended && QUADRANTS.test(capitals)) {
      return [];
    }
    if (!isExtended && signed === null && SIGNED.test(capitals)) {
      signed = { text, line };
    }
  }
  if (signed === null && state.options.arcs !== "multi") {
    state.quadrants = state.options.arcs === "single" ? 74 : 0;
    return [];
  }
  const why = signed === null ? "as --arcs gives it"
    : `since ${signed.text.slice(0, 40)}* on line ${signed.line} has a sign`;
  state.quadrants = state.writtenQuadrants = 75;
  state.change(`G75* is written before it, ${why}`);
  return ["G75*"];
}

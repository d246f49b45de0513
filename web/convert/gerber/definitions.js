/** AM and AD: macros and apertures, defined once or again, and those that are written in another form. */

import { Unsaid } from "../report.js";
import { decimal } from "../exact.js";
import { ANEW, REGIONS } from "./advice.js";
import { Aperture } from "./dictionary.js";
import { NoValue, macroOf } from "./macros.js";
import { partOf, partsOfTemplate } from "./parts.js";
import { Placing, Rounding } from "./placing.js";
import { isOneSided, refusal } from "./refused_apertures.js";
import { macroTexts, placedParts } from "./shapes_written.js";
import { missingUnit } from "./front.js";

/** @typedef {import("./state.js").State} State */

/** EAGLE's octagon, whose factor is itself rounded to five decimals. */
const OCTAGON = /^5,1,8,0(\.0*)?,0(\.0*)?,1\.08239X\$1,22\.5$/i;
const STANDARD = ["C", "R", "O", "P"];

/**
 * @param {import("./state.js").State} state
 * @param {string} command  an AM without % and its last *
 * @returns {string[]} what is written
 */
export function defineMacro(state, command) {
  const { dictionary } = state;
  let macro = macroOf(command, (what) => state.change(what));
  const { name } = macro;
  const old = dictionary.macros.get(name);
  if (old?.key === macro.key) {
    if (old.isMoved) {
      return [];
    }
    state.change(`the macro ${name} is defined again, the same way: left out`);
    return [];
  }
  if (old !== undefined) {
    macro = macro.named(dictionary.freeName(name));
    state.change(`the macro ${name} is defined again, another way: it is ${macro.name} from here on`);
  }
  dictionary.macros.set(name, macro);
  const part = macro.unreadable();
  if (part !== null) {
    state.change(`the macro ${name} is left out: camplot reads no ${part.slice(0, 40)}*`);
    return [];
  }
  return [`%${macro.text}*%`];
}

/**
 * @param {import("./state.js").State} state
 * @param {string} packed  an AD without skipped bytes, % and *
 * @returns {(string | import("./dictionary.js").Slot)[]} what is written
 */
export function defineAperture(state, packed) {
  const { dictionary } = state;
  const found = /^ADD(\d+)([^,]*)(?:,(.*))?$/i.exec(packed);
  if (found === null) {
    throw new Unsaid(`%${packed.slice(0, 30)}*% defines no aperture, which has a number and a template: ${ANEW}`);
  }
  const before = missingUnit(state);
  const [, digits = "", name = "", parameters] = found;
  const texts = parametersOf(state, packed, parameters);
  const template = templateOf(state, packed, name);
  const macro = STANDARD.includes(template) ? null : dictionary.macros.get(template) ?? null;
  const read = texts.map(decimal);
  const sizes = read.includes(null) ? null : /** @type {import("../exact.js").Rational[]} */ (read);
  const unsaid = refusal({ template, macro, sizes }, state.lengthUnit);
  const fileNumber = Number(digits);
  const isSquare = sizes !== null && isOneSided(template, sizes);
  const aperture = new Aperture({ number: fileNumber, template, macro, text: packed, line: state.line, unsaid,
    sizes: sizes === null ? [] : isSquare ? [...sizes, ...sizes] : sizes });
  if (sizes === null) {
    aperture.key = packed;
  }
  const old = dictionary.of(fileNumber);
  if (old?.key === aperture.key) {
    state.change(`aperture ${fileNumber} is defined again, the same way: left out`);
    return before;
  }
  if (old !== null) {
    aperture.number = dictionary.freeNumber();
    state.change(`aperture ${fileNumber} is defined again, another way: it is ${aperture.number} from here on`);
  }
  dictionary.apertures.set(fileNumber, aperture);
  state.refresh();
  before.push(...movedMacro(macro));
  const number = old === null ? digits : aperture.number;
  if (unsaid !== "") {
    const slot = { text: "" };
    aperture.square = isSquare ? `%ADD${number}${template},${texts[0]}X${texts[0]}*%` : "";
    dictionary.waiting.push({ aperture, slot });
    return [...before, slot];
  }
  const rest = parameters === undefined ? "" : `,${texts.join("X")}`;
  const written = `ADD${number}${macro?.name ?? template}${rest}`;
  if (/[a-z]/.test(packed) && written !== packed && packed.toUpperCase() !== packed) {
    state.change(`small letters in %${packed}*% are written as capitals`);
  }
  return [...before, `%${written}*%`];
}

/** @param {State} state @param {string} packed @param {string | undefined} parameters */
function parametersOf(state, packed, parameters) {
  const texts = parameters === undefined ? [] : parameters.split(/[xX]/);
  if (texts.length > 1 && texts[texts.length - 1] === "") {
    texts.pop();
    state.change(`the last X of %${packed}*%, with no parameter after it, is left out`);
  }
  return texts;
}

/**
 * The template's name, in capitals but for a macro's; a macro that stands later is told.
 * @param {State} state
 * @param {string} packed
 * @param {string} name
 */
function templateOf(state, packed, name) {
  const { dictionary } = state;
  if (dictionary.macros.has(name) || STANDARD.includes(name)) {
    return name;
  }
  const capitals = name.toUpperCase();
  if (STANDARD.includes(capitals) || dictionary.macros.has(capitals)) {
    return capitals;
  }
  const later = dictionary.laterMacro(name) ?? dictionary.laterMacro(capitals);
  if (later === null) {
    throw new Unsaid(`%${packed}*%: no macro of this name stands before or after it: ${ANEW}`);
  }
  later.macro.isMoved = true;
  dictionary.macros.set(later.macro.name, later.macro);
  state.change(`the macro ${later.macro.name} of line ${later.line} is written before %ADD..*% names it`);
  return later.macro.name;
}

/**
 * The text of a macro that the file defines too late, where it is named first.
 * @param {import("./macros.js").Macro | null} macro
 */
function movedMacro(macro) {
  if (!macro?.isMoved || macro.isWritten || macro.unreadable() !== null) {
    return [];
  }
  macro.isWritten = true;
  return [`%${macro.text}*%`];
}

/**
 * The parts of an aperture's flash.
 * @param {Aperture} aperture
 * @returns {import("./parts.js").Part[]}
 * @throws {Unsaid} where it has no parts that are known
 */
export function partsOf({ template, macro, sizes, text }) {
  if (template === "AB") {
    throw new Unsaid(`aperture ${text}, a block`);
  }
  if (macro === null) {
    return partsOfTemplate(/** @type {import("./parts.js").Template} */ (template), sizes);
  }
  try {
    return macro.primitives(sizes).map(partOf);
  } catch (error) {
    throw error instanceof NoValue ? new Unsaid("an expression of its macro has no value") : error;
  }
}

/**
 * Settles, at the end of a file, what is written of the apertures that camplot refuses.
 * @param {State} state
 */
export function settleApertures(state) {
  for (const { aperture, slot } of state.dictionary.waiting) {
    const { text, line, unsaid } = aperture;
    const why = unsaid.replace(/:.*/s, "").replace(/ \(.*/, "");
    if (!aperture.isUsed) {
      const reason = aperture.isReplaced ? "others are written for it" : `nothing is painted with it (${why})`;
      state.changes.add(`%${text.slice(0, 60)}*% is left out: ${reason}`, line);
    } else if (aperture.square !== "" && !aperture.isHopeless && state.options.nearest) {
      slot.text = aperture.square;
      state.changes.add(`%${text.slice(0, 60)}*% (${why}) is written as ${slot.text}, with equal sides`, line);
      selectAgain(aperture);
    } else if (!aperture.isHopeless && (state.options.nearest || OCTAGON.test(aperture.macro?.key ?? ""))) {
      slot.text = nearestText(state, aperture, why);
      selectAgain(aperture);
    } else {
      state.refusals.push({ line, what: `%${text.slice(0, 60)}*%${aperture.macro === null ? "," : ":"} ${unsaid}` });
    }
  }
}

/**
 * Writes the selections of an aperture whose definition is written.
 * @param {Aperture} aperture
 */
function selectAgain({ selections }) {
  for (const { slot, text } of selections) {
    slot.text = text;
  }
}

/** @param {State} state @param {Aperture} aperture @param {string} why */
function nearestText(state, aperture, why) {
  const rounding = new Rounding();
  try {
    const placed = placedParts(partsOf(aperture), new Placing(state.lengthUnit, {}, rounding));
    const name = state.dictionary.nameFor(aperture.number);
    state.changes.add(`%${aperture.text.slice(0, 60)}*% (${why}) is written as the macro ${name}`, aperture.line,
      rounding.told());
    return macroTexts(aperture.number, name, placed, state.lengthUnit).join("\n");
  } catch (error) {
    if (!(error instanceof Unsaid)) {
      throw error;
    }
    state.refusals.push({ line: aperture.line, what: `%${aperture.text.slice(0, 60)}*%: ${error.message}: ${REGIONS}` });
    return "";
  }
}

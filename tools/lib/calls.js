// The words of a call: util.parseArgs cuts them, and the table of a command's options says what they may be.

import { parseArgs } from "node:util";
import { helpOf, versionOf } from "./help.js";
import { isNumber, lengthOf } from "../../web/board/index.js";
import { keyOf, valuesOf } from "./options.js";
import { nearest } from "./nearest.js";

/** The words of a call do not fit; or they ask for a text, as `--help`, which `isAsked`. */
export class Call extends Error {
  /** @param {string} text */
  constructor(text, isAsked = false) {
    super(text);
    this.isAsked = isAsked;
  }
}

/**
 * What every command answers, with the text that it prints.
 * @type {{name: string, short: string, textOf: (command: Calls.Command) => string}[]}
 */
const ASKED = [{ name: "help", short: "h", textOf: helpOf }, { name: "version", short: "V", textOf: versionOf }];

// The option of a word, by its name, an earlier name, or so much of one that no other begins so.
/** @param {Calls.Command} command @param {string} word */
function optionOf({ options }, word) {
  /** @param {Calls.Option} option */
  const namesOf = ({ name, old = [] }) => [name, ...old];
  const exact = options.find((option) => namesOf(option).includes(word));
  if (exact || word.length < 4) return exact;
  const long = options.filter((option) => namesOf(option).some((name) => name.startsWith(word)));
  return long.length === 1 && !ASKED.some(({ name }) => `--${name}`.startsWith(word)) ? long[0] : undefined;
}

/** @param {Calls.Option} option */
const isPair = ({ value }) => value !== undefined && typeof value !== "string";

// The words with whole names, and two values of an option in one word.
/** @param {Calls.Command} command @param {string[]} words */
function spelled(command, words) {
  const end = words.includes("--") ? words.indexOf("--") : words.length, made = [];
  for (let at = 0; at < end; at++) {
    const [word = "", x, y] = words.slice(at, Math.min(at + 3, end));
    const [, name, value] = /^(--[^=]*)(=[^]*)?$/.exec(word) ?? [], option = name ? optionOf(command, name) : undefined;
    if (option && isPair(option) && value === undefined && x !== undefined && y !== undefined && isNumber(x) && isNumber(y)) {
      made.push(`${option.name}=${x},${y}`);
      at += 2;
    } else {
      made.push(option ? `${option.name}${value ?? ""}` : word);
    }
  }
  return [...made, ...words.slice(end)];
}

/**
 * The options as parseArgs takes them.
 * @param {readonly Calls.Option[]} options
 */
function formsOf(options) {
  /** @type {[name: string, form: import("node:util").Form][]} */
  const forms = options.map(({ name, short, value }) => [name.slice(2), { type: value === undefined ? "boolean" : "string",
    ...(short ? { short: short.slice(1) } : {}) }]);
  for (const { name, short } of ASKED) forms.push([name, { type: "boolean", short }]);
  return Object.fromEntries(forms);
}

/** @param {readonly string[]} words */
const listed = (words) => [words.slice(0, -1).join(", "), words.at(-1)].filter((part) => part).join(" or ");

// The number of a word, which is whole, or a length in nm.
/** @param {Calls.Option} option @param {string} word */
function numberOf({ name, unit, range, isWhole }, word) {
  const number = unit !== undefined ? lengthOf(word, unit) : /^[-+]?\d{1,15}$/.test(word) ? Number(word) : null;
  if (number === null) {
    throw new Call(`${name} ${word}: ${isWhole ? "it needs a whole number"
      : `it needs a length, as 0.2mm, 8mil or 200nm, or a number of ${unit}`}`);
  }
  if (range && (number < range[0] || number > range[1])) {
    throw new Call(`${name} ${word}: it is from ${range[0]} to ${range[1]}${unit === undefined ? "" : " nm"}`);
  }
  return number;
}

/** @param {Calls.Option} option @param {string} word */
function checked(option, word) {
  if (option.choices && !option.choices.includes(word)) {
    throw new Call(`${option.name} ${word}: choose ${listed(option.choices)}`);
  }
  return option.isWhole || option.unit !== undefined ? numberOf(option, word) : word;
}

// What an option's token gives: true of a switch, else its value, or its two.
/** @param {Calls.Option} option @param {Extract<import("node:util").Token, {kind: "option"}>} token */
function valueOf(option, { rawName, value, inlineValue }) {
  const wanted = valuesOf(option);
  if (!wanted.length) {
    if (inlineValue) throw new Call(`${rawName}=${value}: it takes no value`);
    return true;
  }
  if (value === undefined || !inlineValue && value.length > 1 && value.startsWith("-") && !isNumber(value)) {
    throw new Call(`${option.name} needs ${wanted.join(" and ")}`);
  }
  if (!isPair(option)) return checked(option, value);
  const parts = value.split(",");
  if (parts.length !== wanted.length) throw new Call(`${option.name} ${value}: it needs ${wanted.join(" and ")}`);
  return parts.map((part) => checked(option, part));
}

/** @param {Calls.Command} command @param {string[]} operands */
function checkOperands({ operand: { name, isMany, isOptional } }, operands) {
  if (operands.length === 0 && !isOptional) throw new Call(`no ${name} is named`);
  if (operands.length > 1 && !isMany) throw new Call(`${operands[1]}: one ${name} is taken`);
}

/** @param {Calls.Command} command @param {string} word */
function unknown({ options }, word) {
  const names = [...options, ...ASKED.map(({ name }) => ({ name: `--${name}` }))].map(({ name }) => name);
  const near = nearest(word, names);
  return new Call(`${word} is no option${near === null ? "" : `; did you mean ${near}?`}`);
}

/** @param {Calls.Option} option */
const withoutOne = ({ isList, otherwise, value }) => (isList ? [] : otherwise ?? (value === undefined ? false : null));

/**
 * The values of a call's words, by the options' keys; `operands` has the words that are none of options.
 * @template {Calls.Option} O
 * @param {Calls.Command<O>} command
 * @param {string[]} words
 * @returns {Calls.Values<O>} null where an option is not given, false of a switch
 * @throws {Call} where the words do not fit, or ask for a text
 */
export function parsed(command, words) {
  /** @type {{options: readonly Calls.Option[]}} */
  const { options } = command;
  /** @type {string[]} */
  const operands = [];
  /** @type {Map<string, unknown>} */
  const values = new Map(options.map((option) => [keyOf(option), withoutOne(option)]));
  const { tokens } = parseArgs({ args: spelled(command, words), options: formsOf(options), strict: false,
    allowPositionals: true, tokens: true });
  const asked = ASKED.find(({ name }) => tokens.some((token) => token.kind === "option" && token.name === name));
  if (asked) throw new Call(asked.textOf(command), true);
  for (const token of tokens) {
    if (token.kind === "positional") operands.push(token.value);
    if (token.kind !== "option") continue;
    const option = options.find(({ name }) => name === `--${token.name}`);
    if (!option) throw unknown(command, token.rawName);
    const key = keyOf(option), value = valueOf(option, token), before = values.get(key);
    values.set(key, Array.isArray(before) && option.isList ? [...before, value] : value);
  }
  checkOperands(command, operands);
  // (`valueOf` and `withoutOne` make what `Calls.Values` says of each option's form.)
  return /** @type {Calls.Values<O>} */ (Object.fromEntries([["operands", operands], ...values]));
}

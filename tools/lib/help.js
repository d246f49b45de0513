// What --help and --version print.

import { readFileSync } from "node:fs";
import { LENGTHS, valuesOf } from "./options.js";

// The widest first column, and a line of help.
const COLUMN = 24, WIDTH = 120;

/**
 * An option with the words that it takes: `-o, --out PATH`.
 * @param {Calls.Option} option
 */
export function wordsOf(option) {
  const names = [option.short, option.name].filter((name) => name).join(", ");
  return [names, ...valuesOf(option)].join(" ");
}

/** @param {Calls.Command} command */
export function usageOf({ tool, operand: { name, isMany, isOptional } }) {
  const files = isMany ? `${name} ..` : name;
  return `usage: ${tool} [options] ${isOptional ? `[${files}]` : files}`;
}

/**
 * The options of a command with those that every command has, each as its words and what they mean.
 * @param {Calls.Command} command
 * @returns {{words: string, help: string}[]}
 */
export function rowsOf({ options }) {
  /** @param {readonly string[]} [names] */
  const old = (names = []) => (names.length ? `; earlier: ${names.join(", ")}` : "");
  return [...options.map((option) => ({ words: wordsOf(option), help: `${option.help ?? ""}${old(option.old)}` })),
    { words: "-h, --help", help: "print this" }, { words: "-V, --version", help: "print the version" }];
}

// A text in lines of so many letters.
/** @param {string} text @param {number} width */
function wrapped(text, width) {
  const lines = [""];
  for (const word of text.split(" ")) {
    const last = lines.at(-1);
    if (last && last.length + 1 + word.length > width) lines.push(word);
    else lines[lines.length - 1] = last ? `${last} ${word}` : word;
  }
  return lines;
}

/** @param {{words: string, help: string}} row */
function shownRow({ words, help }) {
  const [line = "", ...others] = wrapped(help, WIDTH - COLUMN - 4), blank = " ".repeat(COLUMN + 4);
  const first = words.length > COLUMN ? [`  ${words}`, `${blank}${line}`] : [`  ${words.padEnd(COLUMN)}  ${line}`.trimEnd()];
  return [...first, ...others.map((other) => `${blank}${other}`)].join("\n");
}

/**
 * What `--help` prints.
 * @param {Calls.Command} command
 * @returns {string}
 */
export function helpOf(command) {
  const { operand, options } = command, hasLengths = options.some(({ unit }) => unit !== undefined);
  const rows = [...(operand.help ? [{ words: operand.name, help: operand.help }] : []), ...rowsOf(command)];
  return [usageOf(command), "", command.about.trim(), "", ...rows.map(shownRow), ...(hasLengths ? ["", LENGTHS] : [])].join("\n");
}

/**
 * What `--version` prints: the version of the repository, which the tools share.
 * @param {Calls.Command} command
 * @returns {string}
 */
export function versionOf({ tool }) {
  return `${tool} ${JSON.parse(readFileSync(new URL("../../web/package.json", import.meta.url), "utf8")).version}`;
}

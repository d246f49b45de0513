// What is made of the tables of the tools' options: completions, parts of the man pages, and the table of docs/tools.md.
// `node tools/tests/packaged.js` writes them, and test_options.js compares.

import { readFileSync, writeFileSync } from "node:fs";
import { join, resolve } from "node:path";
import { fileURLToPath } from "node:url";
import { COMMAND as board } from "../lib/board.js";
import { COMMAND as compare } from "../lib/compare.js";
import { COMMAND as fit } from "../lib/fit.js";
import { rowsOf, wordsOf } from "../lib/help.js";
import { COMMAND as items } from "../lib/items.js";
import { COMMAND as nets } from "../lib/nets.js";
import { optionCalled as shared, valuesOf } from "../lib/options.js";
import { COMMAND as panel } from "../lib/panel.js";
import { COMMAND as toGerber } from "../lib/to_gerber.js";
import { COMMAND as toXnc } from "../lib/to_xnc.js";
import { REPOSITORY } from "./support.js";

/** @type {Calls.Command[]} */
export const COMMANDS = [board, compare, fit, items, nets, panel, toGerber, toXnc];
const HEAD = "Made by tools/tests/packaged.js of the tables of the tools' options.";
/** The options that every tool answers. */
const ALWAYS = ["--help", "--version"];

/**
 * What a tool is called where it is installed.
 * @param {Calls.Command} command
 */
export const installedName = ({ tool }) => `camplot-${tool.replace("tools/", "").replaceAll("_", "-")}`;

const names = COMMANDS.map(installedName);
const all = new Map(COMMANDS.flatMap(({ options }) => options.map((option) => [option.name, option])));
const FOLDERS = ["DIR"], FILES = ["PATH", "FILE", "HTML", "REPORT", "PROGRAM"];
// What an option is completed by: words, folders, files, or nothing.
function actionOf(option) {
  if (option.choices) return { words: option.choices };
  const [value] = valuesOf(option);
  return { isFolder: FOLDERS.includes(value), isFile: FILES.includes(value) };
}

function bashActions() {
  const taking = [...all.values()].filter(({ value }) => value !== undefined).map((option) => ({ ...option, action: actionOf(option) }));
  const patterns = (found) => found.map(({ short, name }) => [short, name].filter((word) => word).join(" | ")).join(" | ");
  const rows = taking.filter(({ action }) => action.words).map((option) => `    ${patterns([option])}) words=(-W '${option.action.words.join(" ")}') ;;`);
  const of = (test) => patterns(taking.filter(test));
  return [...rows, `    ${of(({ action }) => action.isFolder)}) words=(-d) ;;`, `    ${of(({ action }) => action.isFile)}) words=(-f) ;;`,
    `    ${of(({ action }) => !action.words && !action.isFolder && !action.isFile)}) return ;;`];
}

/** Completion for bash. */
function bash() {
  const rows = COMMANDS.map((command) => {
    const words = [...command.options.map(({ name }) => name), ...ALWAYS].sort();
    return `    ${installedName(command)}) options='${words.join(" ")}' ;;`;
  });
  return ["# Completion of the tools of camplot for bash: their options, the words that these take, files and folders.", `# ${HEAD}`,
    "_camplot_tool() {", "  local word=${COMP_WORDS[COMP_CWORD]} before=${COMP_WORDS[COMP_CWORD - 1]} options= words=(-f)",
    "  COMPREPLY=()", "  case $1 in", ...rows, "  esac", "  case $before in", ...bashActions(),
    "    *) [[ $word != -* ]] || words=(-W \"$options\") ;;", "  esac",
    "  mapfile -t COMPREPLY < <(compgen \"${words[@]}\" -- \"$word\")", "}",
    `complete -o filenames -F _camplot_tool ${names.join(" ")}`, ""].join("\n");
}

const inBrackets = (text) => text.split(/[;:(]/)[0].trim().replaceAll("'", "’").replace(/[[\]\\]/g, "");

// An option as _arguments of zsh takes it.
function zshSpec(option) {
  const { short, name, isList, help } = option, action = actionOf(option), told = `[${inBrackets(help)}]`;
  const does = action.words ? `(${action.words.join(" ")})` : action.isFolder ? "_files -/" : action.isFile ? "_files" : " ";
  const values = option.value === undefined ? "" : [option.value].flat().map((value) => `:${value}:${does}`).join("");
  return short ? `'(${short} ${name})'{${short},${name}}'${told}${values}'` : `'${isList ? "*" : ""}${name}${told}${values}'`;
}

/** Completion for zsh. */
function zsh() {
  const cases = COMMANDS.flatMap((command) => [`  ${installedName(command)})`, "    _arguments -s \\",
    ...command.options.map((option) => `      ${zshSpec(option)} \\`),
    "      '(- *)'{-h,--help}'[print help]' \\", "      '(- *)'{-V,--version}'[print the version]' \\",
    `      '*:${command.operand.name.replace("|", " or ").toLowerCase()}:_files'`, "    ;;"]);
  return [`#compdef ${names.join(" ")}`, "# Completion of the tools of camplot for zsh.", `# ${HEAD}`, "case $service in", ...cases, "esac", ""].join("\n");
}

const roff = (text) => text.replaceAll("\\", "\\e").replaceAll("-", "\\-").replace(/^(['.])/, "\\&$1");

// A paragraph of an option: bold names, values in italics.
function manRow({ words, help }) {
  const [names_, ...values] = words.split(/(?<!,) /), marks = names_.split(", ");
  const parts = [...marks.flatMap((mark, at) => [...(at ? ['", "'] : []), roff(mark)])].join(" ");
  const shown = values.length ? ` " \\fI${roff(values.join(" "))}\\fR"` : "";
  return [".TP", `.BR ${parts}${shown}`, roff(`${help.slice(0, 1).toUpperCase()}${help.slice(1)}.`)];
}

/**
 * The parts of a man page that are made: how the tool is called, and its options.
 * @param {Calls.Command} command
 */
function manParts(command) {
  const { name, isMany } = command.operand;
  return { SYNOPSIS: [`.B ${roff(installedName(command))}`, ".RI [ options ]", `.IR ${name.includes(" ") ? `"${name}"` : name.replace("|", " | ")}${isMany ? (name.includes(" ") ? ' " .."' : " ..") : ""}`],
    OPTIONS: rowsOf(command).flatMap(manRow) };
}

/** @param {string} page @param {Calls.Command} command */
function withParts(page, command) {
  let made = page;
  for (const [section, lines] of Object.entries(manParts(command))) {
    const pattern = new RegExp(`(\\n\\.SH ${section}\\n)[^]*?(?=\\n\\.SH )`);
    if (!pattern.test(made)) throw new Error(`no section ${section} in the page of ${command.tool}`);
    made = made.replace(pattern, (_, head) => `${head}${lines.join("\n")}`);
  }
  return made;
}

const TABLE = /\| Option \| board [^]*?(?=\n\n)/;

/**
 * The options that a tool's `--help` prints, each with what it says of it.
 * @param {string} help
 * @returns {Map<string, string>} by the option's words: `-o, --out PATH`
 */
export function optionsOfHelp(help) {
  const found = new Map();
  let last = null;
  for (const line of help.split("\n")) {
    const [, words, more = ""] = /^ {2}((?:-\w, )?--[a-z]\S*(?: \S+)*)(?: {2,}(.*))?$/.exec(line) ?? [];
    if (words) found.set(last = words, more);
    else if (last !== null && /^ {10}/.test(line)) found.set(last, `${found.get(last)} ${line.trim()}`.trim());
    else last = null;
  }
  return found;
}

// What an option means in every tool that has it.
const meaningOf = (name) => shared(name).help.replace(/ \([^()]*\)$/, "");

/**
 * The table of all options, and the tools that have each with its meaning.
 * @param {[string, Map<string, string>][]} tools by their names, with what their `--help` prints
 * @returns {string}
 */
export function tableOf(tools) {
  const rows = [...all.values()].sort((one, other) => (one.name < other.name ? -1 : 1)).map(({ name }) => {
    const words = wordsOf(shared(name)), meaning = meaningOf(name);
    const marks = tools.map(([, options]) => (options.get(words)?.startsWith(meaning) ? "x" : ""));
    return `| \`${words.replaceAll("|", "\\|")}\` | ${marks.join(" | ")} | ${meaning} |`;
  });
  const heads = tools.map(([name]) => name);
  return [`| Option | ${heads.join(" | ")} | What it is |`, `|---|${heads.map(() => "---|").join("")}---|`, ...rows].join("\n");
}

/**
 * The files that are made, each with its text, where `helps` are what the tools print.
 * @param {string[]} helps
 * @returns {{path: string, text: string}[]}
 */
export function packagedFiles(helps) {
  const read = (path) => readFileSync(join(REPOSITORY, path), "utf8");
  const pages = COMMANDS.map((command) => {
    const path = `packaging/${installedName(command)}.1`;
    return { path, text: withParts(read(path), command) };
  });
  const table = tableOf(COMMANDS.map(({ tool }, at) => [tool.replace("tools/", ""), optionsOfHelp(helps[at])]));
  return [{ path: "packaging/camplot-tools.bash", text: bash() }, { path: "packaging/_camplot-tools", text: zsh() }, ...pages,
    { path: "docs/tools.md", text: read("docs/tools.md").replace(TABLE, () => table) }];
}

if (fileURLToPath(import.meta.url) === resolve(process.argv[1] ?? "")) {
  const { helpOf } = await import("../lib/help.js");
  for (const { path, text } of packagedFiles(COMMANDS.map(helpOf))) writeFileSync(join(REPOSITORY, path), text);
}

// What both converters do: files are read, converted, loaded by camplot, and written, each by itself.

import { statSync } from "node:fs";
import { basename, join } from "node:path";
import { digitsOf, toldRefusals } from "../../web/convert/index.js";
import { DRILL, GERBER, kindOf } from "../../web/board/index.js";
import { loadedBy } from "./asked.js";
import { Call, DONE, REFUSED, withEach } from "./command.js";
import { STANDARD, readBytes, writeFile } from "./files.js";
import { complain, say, sayBytes, sayJson } from "./output.js";
import { called } from "./places.js";

/**
 * What a converter makes of a file: its bytes, unless something is refused; the changes and the rest that it did in lines,
 * and as values.
 * @typedef {object} Made
 * @property {Uint8Array | null} bytes
 * @property {import("../../web/convert/index.js").Refusal[]} refusals
 * @property {string[]} changed
 * @property {string[]} told
 * @property {Record<string, unknown>} [values]
 */

/**
 * A converter: the kind of files that it takes, where it writes by default, and what it makes of one.
 * @typedef {object} Converter
 * @property {"gerber" | "drill"} kind
 * @property {(file: string) => string} outOf
 * @property {(bytes: Uint8Array) => Made} convert
 */

/** The tool for each kind of files, and what people call these. */
export const CONVERTERS = {
  [GERBER]: { tool: "to_gerber", files: "Gerber files", file: "a Gerber file" },
  [DRILL]: { tool: "to_xnc", files: "drill files", file: "a drill file" },
};

/**
 * The digits before and after the point.
 * @param {string | null} text
 * @returns {{whole: number, decimals: number} | null} null where none are given
 */
export function chosenDigits(text) {
  const digits = text === null ? null : digitsOf(text);
  if (text !== null && !digits) throw new Call(`--format ${text}: it needs two digits, as 2.4`);
  return digits;
}

/**
 * The outcome of a file: what it was made into, or why it was not.
 * @typedef {object} Outcome
 * @property {string} file
 * @property {string | null} out where that is written
 * @property {Uint8Array | null} bytes
 * @property {string[]} told
 * @property {string[]} refused
 * @property {Record<string, unknown>} values
 */

/** @typedef {Pick<Calls.Asked<typeof import("./to_gerber.js").COMMAND>, "operands" | "out" | "replace" | "json" | "camplot">} Options */

// A file of the other kind is refused by its name, and not line by line.
/**
 * @param {string} tool
 * @param {string} file
 * @param {Uint8Array} bytes
 * @param {Converter} converter
 * @param {import("../../web/convert/index.js").Refusal[]} refusals
 */
function refusalsOf(tool, file, bytes, { kind }, refusals) {
  const other = kind === GERBER ? DRILL : GERBER;
  if (kindOf(bytes) !== other) return toldRefusals(tool, file, refusals);
  return [`${file}: this is ${CONVERTERS[other].file}, and ${tool} takes ${CONVERTERS[kind].files}: ${
    called(CONVERTERS[other].tool)} converts it; nothing was written`];
}

/** @param {string} tool @param {string} file @param {Converter} converter @param {string} camplot @returns {Outcome} */
function convertedFile(tool, file, converter, camplot) {
  const source = readBytes(file), { bytes, refusals, changed, told, values = {} } = converter.convert(source), none = { out: null, bytes: null };
  if (!bytes) return { file, ...none, told: [], refused: refusalsOf(tool, file, source, converter, refusals), values: { refusals } };
  const loaded = loadedBy(camplot, converter.kind, bytes);
  if (!loaded.isRefused) return { file, ...none, bytes, told: [...told, loaded.told], refused: [], values };
  return { file, ...none, told, refused: [...changed, `${file}: ${loaded.told}`, `${tool}: nothing was written`], values };
}

/** @param {string} path */
const isFolder = (path) => statSync(path, { throwIfNoEntry: false })?.isDirectory() ?? false;

// Where a file's text goes: by default next to it, from standard input to standard output.
/** @param {string} file @param {Converter} converter @param {string | null} out */
function targetOf(file, { outOf }, out) {
  const own = file === STANDARD ? STANDARD : outOf(file);
  if (out === null) return own;
  return isFolder(out) ? join(out, basename(own === STANDARD ? outOf("standard-input") : own)) : out;
}

/** @param {Outcome} outcome @param {Uint8Array} bytes @param {string} target @param {Options} options @returns {Outcome} */
function written(outcome, bytes, target, { replace, operands }) {
  if (target === STANDARD) sayBytes(bytes);
  else writeFile(target, bytes, replace, operands);
  return { ...outcome, out: target, told: target === STANDARD ? outcome.told : [...outcome.told, `written: ${target}`] };
}

/** @param {Outcome} outcome @param {Options} options */
function tell({ file, out, told, refused }, { operands, json }) {
  if (refused.length) complain(refused.join("\n"));
  if (json || refused.length) return;
  const print = out === STANDARD ? complain : say;
  print([...(operands.length > 1 ? [`${file}:`] : []), ...told].join("\n"));
}

/** @param {Options} options @param {Converter} converter */
function checkCall({ operands, out, json }, converter) {
  if (operands.length > 1 && out !== null && !isFolder(out)) {
    throw new Call(`--out ${out}: for several files it names a folder that is there`);
  }
  if (json && (out === STANDARD || out === null && operands.includes(STANDARD))) {
    throw new Call("--json prints on standard output, and so does the text: name a file by --out");
  }
  const targets = operands.map((file) => targetOf(file, converter, out));
  const twice = targets.find((target, at) => targets.indexOf(target) < at);
  if (twice !== undefined) throw new Call(`two of the files would be written as ${twice}`);
}

/**
 * Converts the files of a call, each by itself.
 * @param {string} tool
 * @param {Options} options
 * @param {Converter} converter
 * @returns {number} the exit status: the greatest of those of the files
 */
export function convertFiles(tool, options, converter) {
  const { operands } = options;
  /** @type {Outcome[]} */
  const outcomes = [];
  checkCall(options, converter);
  const status = withEach(tool, operands, (file) => {
    const made = convertedFile(tool, file, converter, options.camplot);
    const outcome = made.bytes ? written(made, made.bytes, targetOf(file, converter, options.out), options) : made;
    outcomes.push(outcome);
    tell(outcome, options);
    return made.bytes ? DONE : REFUSED;
  });
  if (options.json) sayJson({ files: outcomes.map(({ file, out, told, values }) => ({ file, written: out, told, ...values })) });
  return status;
}

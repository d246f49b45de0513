// What a command prints. It goes to standard output, or into the file of --out.

import { codeOf } from "./faults.js";
import { STANDARD, checkTarget, reasonOf, writeFile, writtenFiles } from "./files.js";

/** The exit status where standard output does not take what is printed. */
const UNPRINTED = 3;

/** @type {{tool: string, lines: string[] | null, fault: Error | null}} */
const state = { tool: "", lines: null, fault: null };

/**
 * Prints lines on standard output, or keeps them for the file of --out.
 * @param {string} text
 */
export function say(text) {
  if (state.lines) state.lines.push(text);
  else process.stdout.write(`${text}\n`);
}

/**
 * Prints bytes as they are.
 * @param {Uint8Array} bytes
 */
export function sayBytes(bytes) {
  process.stdout.write(bytes);
}

/**
 * Prints a value as JSON, for other programs.
 * @param {unknown} value
 */
export function sayJson(value) {
  say(JSON.stringify(value, null, 1));
}

/**
 * Prints lines on standard error.
 * @param {string} text
 */
export function complain(text) {
  process.stderr.write(`${text}\n`);
}

// Standard output takes no more: who reads it stopped early, which is no fault, or the device is full.
/** @param {Error} fault */
function stopped(fault) {
  if (codeOf(fault) === "EPIPE" || state.fault) return;
  state.fault = fault;
  const written = writtenFiles().map((path) => `${path} was written`).join(", ");
  complain(`${state.tool}: standard output cannot be written: ${reasonOf(fault)}${written && `; ${written}`}`);
  process.exitCode = UNPRINTED;
}

/**
 * Begins a command's output.
 * @param {string} tool what complaints begin with
 */
export function beginOutput(tool) {
  state.tool = tool;
  process.stdout.on("error", stopped);
  process.stderr.on("error", () => {});
}

/**
 * Leaves the exit status, but where what was printed is lost.
 * @param {number} status
 */
export function leave(status) {
  process.exitCode = state.fault ? UNPRINTED : status;
}

/**
 * What a run prints goes into the file of --out, whole or not at all; without it, or with `-`, to standard output.
 * @param {{out: string | null, replace: boolean, operands: string[]}} options
 * @param {() => T | Promise<T>} run
 * @returns {Promise<T>}
 * @template T
 */
export async function printedInto({ out, replace, operands }, run) {
  if (out === null || out === STANDARD) return run();
  checkTarget(out, replace, operands);
  state.lines = [];
  try {
    const result = await run();
    if (state.lines.length) writeFile(out, `${state.lines.join("\n")}\n`, replace, operands);
    return result;
  } finally {
    state.lines = null;
  }
}

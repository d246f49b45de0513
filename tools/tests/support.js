// What tests of the tools share: where things are, and how a tool is run.

import assert from "node:assert/strict";
import { spawnSync } from "node:child_process";
import { existsSync, mkdtempSync, rmSync } from "node:fs";
import { tmpdir } from "node:os";
import { dirname, join, resolve } from "node:path";
import { fileURLToPath } from "node:url";
import { afterwards } from "./harness.js";

const TOOLS = dirname(dirname(fileURLToPath(import.meta.url)));
export const CASES = join(TOOLS, "cases");
export const REPOSITORY = dirname(TOOLS);
export const PROGRAM = resolve(process.env.CAMPLOT ?? join(REPOSITORY, "crates", "camplot", "out", "camplot"));

/** What each refusal of a converter says: the option that helps, or what to set or to write. */
export const ADVICE = new RegExp("(: |, |or |; )(add|choose|cut|give|have|leave|plot|select|write) |--[a-z]+"
  + "|: (the file was cut short|a command without its end)");

// They load what they made, by the program that is tested.
const CONVERTERS = ["to_gerber", "to_xnc"];
const LOADED = /^(camplot loads it: \d+ items|not loaded: no program is built, and no module that this node reads)\n/m;

/**
 * Runs tools/NAME with these words, in the folder, and gives its exit status and what it said.
 * @param {string} name
 * @param {unknown[]} words
 * @param {string} [folder]
 * @returns {{status: number, stdout: string, stderr: string}}
 */
export function runTool(name, words = [], folder = undefined) {
  const loading = CONVERTERS.includes(name) && !words.includes("--camplot") ? ["--camplot", PROGRAM] : [];
  return runProgram(process.execPath, [join(TOOLS, name), ...words, ...loading], folder);
}

/** What a converter said, without the line that tells whether camplot loads what it made. */
export function withoutLoaded(said) {
  assert.match(said, LOADED);
  if (existsSync(PROGRAM)) assert.match(said, /^camplot loads it: /m);
  return said.replace(LOADED, "");
}

/** Runs a program the same way. */
export function runProgram(program, words = [], folder = undefined) {
  const done = spawnSync(program, words.map(String), { cwd: folder, encoding: "utf8", timeout: 300_000,
    maxBuffer: 1 << 28 });
  if (done.error) throw done.error;
  return { status: done.status, stdout: done.stdout, stderr: done.stderr };
}

/** A new folder, which goes with the running test. */
export function newRoom() {
  const room = mkdtempSync(join(tmpdir(), "camplot-test-"));
  afterwards(() => rmSync(room, { recursive: true, force: true }));
  return room;
}

/** Fails where camplot is not built. */
export function needProgram() {
  if (!existsSync(PROGRAM)) assert.fail(`${PROGRAM} is not there`);
}

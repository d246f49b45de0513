// Running `camplot`, or the module in its place where none is built; and the page that explains its refusals.

import { spawnSync } from "node:child_process";
import { existsSync, mkdtempSync, readFileSync, rmSync, statSync, writeFileSync } from "node:fs";
import { tmpdir } from "node:os";
import { join, resolve } from "node:path";
import { latin1Bytes } from "../../web/bytes/index.js";
import { Failure } from "../../web/convert/index.js";
import { meaningsOf, repliesOf } from "../../web/board/index.js";
import { replaceFile } from "./files.js";
import { outputOfModule, stationModule } from "./module.js";
import { PROGRAM, REFUSALS, remedy } from "./places.js";

// What a run may print.
const MOST_OUTPUT = 1 << 30;

/** A layer more than these is refused with 85. */
export const LAYERS = 32;

/**
 * Whether a program is built.
 * @param {string} program
 */
export function isBuilt(program) {
  return existsSync(program) && statSync(program).isFile();
}

/**
 * Whether lines can be run: by this program or, if it is the one that is taken where none is named and it is not built, by
 * the module.
 * @param {string} program
 */
export function canRun(program) {
  return isBuilt(program) || resolve(program) === resolve(PROGRAM) && stationModule() !== null;
}

/**
 * Stops where no lines can be run.
 * @param {string} program
 */
export function checkProgram(program) {
  if (!canRun(program)) throw new Failure(`${program} does not exist: ${remedy("./demo builds it")}, and --camplot names another`);
}

/** @param {string} program @param {string} folder @param {string} path */
function outputOf(program, folder, path) {
  const done = spawnSync(resolve(program), [resolve(path)], { cwd: folder, encoding: "latin1", maxBuffer: MOST_OUTPUT });
  if (done.status === 0 || done.status === 1) return done.stdout;
  const why = done.error?.message ?? (done.stderr.trim() || `ended with status ${done.status ?? done.signal}`);
  throw new Failure(`${program}: ${why}`);
}

/**
 * Runs lines in a folder, and leaves them as a script where a path is given. A character of a line is a byte of the script.
 * @param {string} program
 * @param {string} folder
 * @param {string[]} lines
 * @param {string | null} script
 * @returns {import("../../web/board/index.js").Reply[]}
 */
export function runLines(program, folder, lines, script = null) {
  checkProgram(program);
  const room = mkdtempSync(join(tmpdir(), "camplot-"));
  try {
    const path = script ?? join(room, "script"), put = script === null ? writeFileSync : replaceFile;
    put(path, latin1Bytes(lines.map((line) => `${line}\n`).join("")));
    const output = isBuilt(program) ? outputOf(program, folder, path) : outputOfModule(folder, lines);
    const replies = repliesOf(lines, output);
    if (!replies) throw new Failure(`${program}: another number of replies than of lines`);
    return replies;
  } finally {
    rmSync(room, { recursive: true, force: true });
  }
}

/** @type {ReturnType<typeof meaningsOf> | null} */
let known = null;

/** The refusals' meanings; none where the page that explains them is not there. */
export function meanings() {
  known ??= existsSync(REFUSALS) ? meaningsOf(readFileSync(REFUSALS, "utf8")) : { general: new Map(), drill: new Map() };
  return known;
}

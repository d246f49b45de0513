// What a converter made, loaded by camplot before it is written: by the program, or by the module of the page.

import { mkdtempSync, rmSync, writeFileSync } from "node:fs";
import { join } from "node:path";
import { tmpdir } from "node:os";
import { explain } from "../../web/board/index.js";
import { Failure } from "./command.js";
import { PROGRAM } from "./places.js";
import { canRun, isBuilt, meanings, runLines } from "./station.js";

/** @param {string} program @param {string} line @param {Uint8Array} bytes */
function replyOf(program, line, bytes) {
  const room = mkdtempSync(join(tmpdir(), "camplot-"));
  try {
    writeFileSync(join(room, "file"), bytes);
    const [reply] = runLines(program, room, [line]);
    if (!reply) throw new Failure(`${program}: no reply`);
    return reply;
  } finally {
    rmSync(room, { recursive: true, force: true });
  }
}

/**
 * Loads bytes that a converter made.
 * @param {string} program
 * @param {"gerber" | "drill"} kind
 * @param {Uint8Array} bytes
 * @returns {{isRefused: boolean, told: string}} whether camplot refuses them, and what is to be printed
 */
export function loadedBy(program, kind, bytes) {
  const by = isBuilt(program) ? program : PROGRAM;
  if (!canRun(by)) return { isRefused: false, told: "not loaded: no program is built, and no module that this node reads" };
  const reply = replyOf(by, `load it ${kind} file`, bytes);
  if (reply.isAccepted) return { isRefused: false, told: `camplot loads it: ${reply.count} items` };
  return { isRefused: true, told: `camplot does not load what was made of it: ${explain(reply, meanings(), bytes)}` };
}

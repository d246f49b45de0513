// What the tests of tools/nets share.

import assert from "node:assert/strict";
import { inputs } from "../lib/inputs.js";
import { Answer } from "../lib/nets_answer.js";
import { NetsBoard } from "../lib/nets_board.js";
import { layersOf, rolesOf } from "../lib/nets_roles.js";
import { neededBy } from "../lib/nets_sides.js";
import { Truth } from "../lib/nets_truth.js";
import { afterwards } from "./harness.js";
import { PROGRAM, needProgram, newRoom, runTool } from "./support.js";

export { newRoom };

const PITCH = 10_000;

/** What tools/nets says, after its exit status was checked. */
export function nets(words, status = 0) {
  needProgram();
  const done = runTool("nets", [...words, "--camplot", PROGRAM]);
  assert.equal(done.status, status, done.stdout + done.stderr);
  return done.stdout + done.stderr;
}

/** What it finds. */
export const netsFound = (words, status = 0) => JSON.parse(nets([...words, "--json"], status));

// Many boards are drawn once for all that they are compared with.
class DrawnOnce extends NetsBoard {
  /** @type {ReturnType<NetsBoard["nets"]> | null} */
  drawn = null;

  nets(window) {
    return this.drawn ??= super.nets(window);
  }
}

/**
 * What it finds of the files in a folder, without a process of its own.
 * @param {string} folder
 * @param {Map<string, number>} [limits] of rules, in nm
 * @returns {(netlist: string | null) => *} what is found by a netlist, or by attributes
 */
export function foundIn(folder, limits = new Map()) {
  needProgram();
  const { files, areNamed } = inputs([folder]), { layers, others } = layersOf(files, areNamed, rolesOf([]));
  const board = new DrawnOnce(layers, [], PROGRAM, neededBy(limits));
  afterwards(() => board.close());
  return (netlist) => {
    const truth = new Truth(board, netlist && Truth.netlist(netlist));
    truth.checkWhole(others, false);
    truth.align(null);
    const answer = new Answer(board, truth, board.window(PITCH), "", { gap: null, neck: null, mayTouch: [], limits });
    return { hasFault: answer.hasFault, ...answer.findings() };
  };
}

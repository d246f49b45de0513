// A pair of layers, loaded and plotted by the program, and compared.

import { mkdtempSync, readFileSync, rmSync, writeFileSync } from "node:fs";
import { tmpdir } from "node:os";
import { join } from "node:path";
import { Compared, Difference, SAME } from "../../web/compare/index.js";
import { readPbm } from "../../web/bytes/index.js";
import { explain, windowAtPitch, windowLine } from "../../web/board/index.js";
import { Failure } from "./command.js";
import { bytesOf, pathOf } from "./inputs.js";
import { mended } from "./mending.js";
import { stationModule } from "./module.js";
import { meanings, runLines } from "./station.js";

/** @typedef {import("../../web/board/index.js").PlotWindow} PlotWindow */
/** @typedef {[import("../../web/bytes/index.js").Picture, import("../../web/bytes/index.js").Picture]} Pictures of both layers */

// What the two layers, their files, their texts and their pictures are called where the program runs, and for people.
const NAMES = /** @type {const} */ (["a", "b"]), CALLED = /** @type {const} */ (["A", "B"]);
const BOTH = /** @type {const} */ ([0, 1]);

/** Two layers that belong together, and what came of comparing them. */
export class ComparedPair {
  /**
   * @param {import("../../web/compare/index.js").Pair} pair
   * @param {string} program
   */
  constructor({ first, second, by }, program) {
    /** @type {[import("../../web/board/index.js").Layer, import("../../web/board/index.js").Layer]} */
    this.layers = [first, second];
    this.by = by;
    this.program = program;
    /** @type {[Uint8Array, Uint8Array]} */
    this.bytes = [bytesOf(first.file), bytesOf(second.file)];
    this.isSameFile = Buffer.compare(this.bytes[0], this.bytes[1]) === 0;
    /** Whether both show another thing. */
    this.isAnother = first.layerFunction.name !== second.layerFunction.name;
    /** @type {Compared | null} null where the files are the same, or one is refused */
    this.compared = null;
    /** @type {string[]} the refusals of files, each with the name of its board */
    this.refused = [];
    /** @type {PlotWindow | null} in which both were plotted */
    this.window = null;
  }

  /** What came of it. */
  get outcome() {
    if (this.refused.length) return "refused";
    return this.compared?.outcome ?? SAME;
  }

  /** Whether both make the same. */
  get isSame() {
    return this.outcome === SAME && !this.isAnother;
  }

  /**
   * Runs lines on both layers, in a folder of their own.
   * @template T
   * @param {string[]} lines
   * @param {(read: (name: string) => Buffer, replies: import("../../web/board/index.js").Reply[]) => T} act
   * @returns {T}
   */
  run(lines, act) {
    const room = mkdtempSync(join(tmpdir(), "camplot-compare-"));
    try {
      for (const at of BOTH) writeFileSync(join(room, `${NAMES[at]}.file`), this.bytes[at]);
      const loads = BOTH.map((at) => `load ${NAMES[at]} ${this.layers[at].kind} ${NAMES[at]}.file`);
      return act((name) => readFileSync(join(room, name)), runLines(this.program, room, [...loads, ...lines]));
    } finally {
      rmSync(room, { recursive: true, force: true });
    }
  }

  /**
   * Compares the items, and the pictures where items differ.
   * @param {number} pitch of the pictures, in nm
   */
  compare(pitch) {
    if (this.isSameFile) return;
    this.run(NAMES.map((name) => `write ${name} ${name}.text`), (read, replies) => this.load(read, replies));
    const { compared } = this, box = compared?.changes.length ? compared.box() : null;
    if (box) this.see(windowAtPitch(box, pitch));
  }

  /** @param {(name: string) => Buffer} read @param {import("../../web/board/index.js").Reply[]} replies */
  load(read, replies) {
    for (const at of BOTH) {
      const reply = replies[at];
      if (reply && !reply.isAccepted) this.refused.push(`${CALLED[at]}: ${[explain(reply, meanings(), this.bytes[at]), ...this.ways(at)].join("; ")}`);
    }
    if (this.refused.length) return;
    const failed = replies.find((reply) => !reply.isAccepted);
    if (failed) throw new Failure(`${failed.line}: ${explain(failed, meanings())}`);
    /** @param {0 | 1} at */
    const given = (at) => ({ kind: this.layers[at].kind, text: read(`${NAMES[at]}.text`), bytes: this.bytes[at] });
    this.compared = new Compared(given(0), given(1));
  }

  // How a file that is refused is made one that loads, where a converter helps.
  /** @param {0 | 1} at */
  ways(at) {
    const { kind, file } = this.layers[at];
    const way = stationModule() ? mended(kind, this.bytes[at], pathOf(file)) : null;
    return way === null ? [] : [way];
  }

  /**
   * The pictures of both in windows.
   * @param {PlotWindow[]} windows
   * @returns {Pictures[]}
   */
  pictures(windows) {
    const lines = windows.flatMap((window, number) => [windowLine(window), ...NAMES.map((name) => `plot ${name} ${number}.${name}`)]);
    return this.run(lines, (read, replies) => {
      const failed = replies.find((reply) => !reply.isAccepted);
      if (failed) throw new Failure(`${failed.line}: ${explain(failed, meanings())}`);
      /** @param {number} number @param {0 | 1} at */
      const picture = (number, at) => readPbm(read(`${number}.${NAMES[at]}`));
      return windows.map((_, number) => [picture(number, 0), picture(number, 1)]);
    });
  }

  /** @param {PlotWindow} window */
  see(window) {
    this.window = window;
    for (const [first, second] of this.pictures([window])) this.compared?.see(new Difference(first, second, window));
  }
}

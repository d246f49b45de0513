// The floor of the package: the station for node 18 and browsers, the calls of include/camplot.h over the module, without the program.
//
// It is not used by the page or the tools, which call the station's floor. index.d.ts has its types, docs/library.md its page, and
// example.js is an example that runs.

import { Station as Machine } from "../station/index.js";

const MODULE = new URL("../out/station.wasm", import.meta.url);
/** @param {string | Uint8Array} text */
const bytesOf = (text) => typeof text === "string" ? new TextEncoder().encode(text) : text;
/** @param {Uint8Array} bytes */
const textOf = (bytes) => new TextDecoder().decode(bytes);

/** @type {Promise<WebAssembly.Module> | null} */
let compiled = null;

async function moduleBytes() {
  if (MODULE.protocol !== "file:") return (await fetch(MODULE)).arrayBuffer();
  const { readFile } = await import("node:fs/promises");
  return readFile(MODULE);
}

// The package's own module, compiled once; one that could not be had is asked for anew the next time.
function ownModule() {
  compiled ??= moduleBytes().then((bytes) => WebAssembly.compile(bytes)).catch((fault) => {
    compiled = null;
    throw fault;
  });
  return compiled;
}

/** A line that was refused, or a question: its number, and the reply, as `refused 60`. */
export class Refused extends Error {
  /** @param {string | Uint8Array} line @param {number} code @param {string} reply */
  constructor(line, code, reply) {
    super(`${reply || `refused ${code}`}: ${line}`);
    Object.assign(this, { name: "Refused", line, code, reply });
  }
}

/** A board of named layers, a window, and the history of what was done to the board. */
export class Station {
  /**
   * Opens a station.
   * @param {object} options
   * @param {number} [options.depth] how many edits and groups it can undo, from 1 to 1,000
   * @param {WebAssembly.Module | null} [options.module] where it is compiled already
   */
  static async open({ depth = 100, module = null } = {}) {
    if (!Number.isInteger(depth) || depth < 1 || depth > 1000) throw new RangeError("a depth is a number from 1 to 1,000");
    return new Station(new Machine(module ?? await ownModule(), depth));
  }

  /** @param {Machine} machine */
  constructor(machine) {
    this.machine = machine;
  }

  /** Frees its memory; it can't be used after that. */
  close() {
    this.machine.close();
  }

  /**
   * Applies one line of a script; a `load` with the bytes of its file. Answers the number of its refusal, or 0, its reply
   * without a line end, and the bytes of the picture of a plot, or of the text of a write.
   * @param {string | Uint8Array} line
   * @param {string | Uint8Array | null} file
   */
  apply(line, file = null) {
    const code = this.machine.apply(bytesOf(line), file === null ? null : bytesOf(file));
    return { code, reply: textOf(this.machine.reply).replace(/\n$/, ""), file: this.machine.file };
  }

  /**
   * The same, for lines that have to be accepted.
   * @param {string | Uint8Array} line
   * @param {string | Uint8Array | null} file
   * @returns {Uint8Array} the file's bytes
   * @throws {Refused}
   */
  run(line, file = null) {
    const { code, reply, file: made } = this.apply(line, file);
    if (code) throw new Refused(line, code, reply);
    return made;
  }

  /**
   * The lines of the answer to a question (docs/questions.md).
   * @param {string} question
   * @throws {Refused} where it is not answered
   */
  ask(question) {
    const code = this.machine.ask(bytesOf(question));
    if (code) throw new Refused(question, code, `refused ${code}`);
    const answer = textOf(this.machine.file);
    return answer ? answer.replace(/\n$/, "").split("\n") : [];
  }

  /**
   * Draws at most so many dirty tiles.
   * @param {number} atMost
   * @returns {number} how many were drawn
   */
  redraw(atMost) {
    const code = this.machine.redraw(atMost);
    if (code) throw new Refused(`redraw ${atMost}`, code, `refused ${code}`);
    return Number(textOf(this.machine.reply).split(" ")[1]);
  }

  /**
   * The 64 rows of a tile of a layer, from the top, eight bytes each, the first byte's lowest bit on the left, 1 for black;
   * null where the tile is dirty or not there. Layers are counted from 0 in the order of their loads.
   * @param {number} layer
   * @param {number} number
   */
  tile(layer, number) {
    return this.machine.tile(layer, number);
  }
}

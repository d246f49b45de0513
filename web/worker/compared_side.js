// One of two boards that are compared, in a station of its own: the files of a folder or an archive, or the lines of a board that a
// page has open.

import { Station } from "../station/index.js";
import { functionsOfJobs, tellByJobs } from "../compare/index.js";
import { isPbm, latin1, latin1Bytes, readPbm } from "../bytes/index.js";
import { recogniseFiles, windowLine } from "../board/index.js";
import { loadedLayer } from "./loaded.js";
import { withAttributes } from "./attributes.js";

/** @typedef {import("../board/index.js").Layer} Layer */
/** @typedef {import("../board/index.js").BoardFile} BoardFile */

/**
 * A layer of a board that is compared.
 * @typedef {object} SideLayer
 * @property {Layer} layer its file has the bytes that say what it shows
 * @property {Uint8Array} bytes of which its attributes and comments are read
 * @property {string | null} why it cannot be read, in words; null where it can
 * @property {string[]} notes of how it was read
 * @property {boolean} isEdited whether lines made another thing of it than its file is
 *
 * @typedef {object} BoardLines the lines that a board's station accepted, and its layers
 * @property {Board.Sent[]} lines those of loads with their files
 * @property {{name: string, kind: Board.LayerKind, fileName: string, bytes: Uint8Array}[]} layers with files that say what each shows
 * @property {BoardFile | null} job
 */

const text = new TextEncoder();
const JOB = /\.gbrjob$/i;
// They look at the layers, and leave them as they are.
const LOOKING = /^\s*(?:window|plot|redraw|write)(?:\s|$)/;
// What is written is under paths that no file of a board has.
const TEXT = "compared/text", PICTURE = "compared/picture";
// Comments that are of the file as a whole: those of items and apertures would be taken for the first ones.
const COMMENTS = /G0?4(?![^*%]*#@!\s*T[AOD])[^*%]*\*/g;

/** @param {Uint8Array} one @param {Uint8Array} other */
const isEqual = (one, other) => one.length === other.length && one.every((byte, at) => byte === other[at]);

export class Side {
  /** @param {WebAssembly.Module} compiled @param {number} depth how many steps its station can undo */
  constructor(compiled, depth) {
    this.compiled = compiled;
    this.station = new Station(compiled, depth);
    /** @type {SideLayer[]} */
    this.layers = [];
    /** @type {string[]} the names of files that are no layers */
    this.leftOut = [];
    /** @type {Map<string, string>} functions of job files */
    this.functions = new Map();
  }

  /**
   * Applies a line.
   * @param {string} line
   * @param {Uint8Array | null} bytes
   * @returns {string | null} the reply of a refusal
   */
  apply(line, bytes = null) {
    const { station } = this;
    return station.apply(text.encode(line), bytes) ? new TextDecoder().decode(station.reply).trimEnd() : null;
  }

  /** @param {BoardFile[]} files */
  openFiles(files) {
    this.functions = functionsOfJobs(files);
    const { layers, others } = recogniseFiles(files.filter(({ name, bytes }) => !JOB.test(name) && !isPbm(bytes)), false);
    tellByJobs(layers, this.functions);
    this.leftOut = others.map(({ name }) => name);
    this.layers = layers.map((layer) => ({ layer, bytes: layer.file.bytes, why: null, notes: [], isEdited: false }));
    for (const one of this.layers) one.why = this.load(one, one.bytes);
  }

  /** @param {SideLayer} one @param {Uint8Array} bytes */
  load({ layer }, bytes) {
    return this.apply(`load ${layer.name} ${layer.kind} ${layer.name}`, bytes);
  }

  /**
   * A layer that was refused, by bytes that it was converted to, or why it stays refused.
   * @param {number} at
   * @param {{bytes: Uint8Array | null, words: string}} found
   * @returns {string | null} why it is refused
   */
  mend(at, { bytes, words }) {
    const one = this.layers[at];
    if (!one) throw new Error("there is no such layer");
    one.why = bytes === null ? words : this.load(one, bytes);
    if (bytes !== null && one.why === null) {
      one.bytes = bytes;
      one.notes.push(words);
    }
    return one.why;
  }

  /**
   * What is known of a layer.
   * @param {Layer} layer
   */
  layerOf(layer) {
    const found = this.layers.find((one) => one.layer === layer);
    if (!found) throw new Error(`${layer.name} is a layer of the other board`);
    return found;
  }

  /** @param {BoardLines} board @param {number} depth */
  async openLines({ lines, layers, job }, depth) {
    if (job) this.functions = functionsOfJobs([job]);
    const taken = lines.filter(({ line }) => !LOOKING.test(line));
    for (const { line, bytes } of taken) {
      const reply = this.apply(line, bytes ?? null);
      if (reply !== null) throw new Error(`a line of the board is refused (${reply}): ${line.slice(0, 80)}`);
    }
    this.layers = layers.map(({ name, kind, fileName, bytes }) =>
      ({ layer: loadedLayer({ name: fileName, bytes }, name, kind), bytes, why: null, notes: [], isEdited: false }));
    tellByJobs(this.layers.map(({ layer }) => layer), this.functions);
    if (taken.some(({ line }) => !/^\s*load\s/.test(line))) await this.carry(taken, depth);
  }

  // What the files of edited layers say of their items, as it stands after the lines.
  /** @param {BoardLines["lines"]} lines @param {number} depth */
  async carry(lines, depth) {
    for (const one of this.layers) one.isEdited = !isEqual(this.text(one.layer.name), this.asLoaded(one));
    const given = this.layers.filter(({ layer, isEdited }) => isEdited && layer.kind === "gerber")
      .map((one) => ({ one, name: one.layer.name, canonical: this.text(one.layer.name) }));
    const { files } = await withAttributes(this.compiled, { layers: given, entries: lines, depth });
    given.forEach(({ one, canonical }, at) => {
      const comments = [...latin1(one.bytes).matchAll(COMMENTS)].map(([comment]) => comment).join("\n");
      const file = files[at], said = file?.bytes ?? null;
      one.bytes = latin1Bytes(`${comments}\n${latin1(said ?? canonical)}`);
      if (said === null) one.notes.push(`what its file says of its items is not compared: ${file?.why}`);
    });
  }

  // The text of a layer as its file has it.
  /** @param {SideLayer} one */
  asLoaded({ layer, bytes }) {
    const side = new Side(this.compiled, 1);
    try {
      return side.apply(`load ${layer.name} ${layer.kind} ${layer.name}`, bytes) === null ? side.text(layer.name) : new Uint8Array();
    } finally {
      side.station.close();
    }
  }

  // The canonical text of a layer.
  /** @param {string} name */
  text(name) {
    const reply = this.apply(`write ${name} ${TEXT}`);
    if (reply !== null) throw new Error(`its text cannot be written: ${reply}`);
    return this.station.file;
  }

  /**
   * The picture of a layer in a window.
   * @param {string} name
   * @param {import("../board/index.js").PlotWindow} window
   */
  picture(name, window) {
    const reply = this.apply(windowLine(window)) ?? this.apply(`plot ${name} ${PICTURE}`);
    if (reply !== null) throw new Error(`its picture cannot be made: ${reply}`);
    return readPbm(this.station.file);
  }
}

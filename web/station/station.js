// The station of the module: the functions of include/camplot.h over its memory. It is in the worker alone.

/**
 * What the module exports: include/camplot.h, and its heap. Places, lengths and the station are numbers of 64 bits.
 * @typedef {object} Exports
 * @property {WebAssembly.Memory} memory
 * @property {(count: bigint) => bigint} heap_alloc
 * @property {(room: bigint) => void} heap_free
 * @property {(depth: number, room: bigint) => number} camplot_open
 * @property {(station: bigint) => void} camplot_close
 * @property {(station: bigint, line: bigint, length: bigint, file: bigint, count: bigint) => number} camplot_apply
 * @property {(station: bigint, question: bigint, length: bigint) => number} camplot_ask
 * @property {(station: bigint, atMost: number) => number} camplot_redraw
 * @property {Told} camplot_reply
 * @property {Told} camplot_file
 * @property {(station: bigint, layer: number, number: number, rows: bigint) => number} camplot_tile
 *
 * @typedef {(station: bigint, room: bigint, length: bigint) => bigint} Told
 */

const HANDLE_BYTES = 8;
const ROWS_BYTES = 512;
const NO_MEMORY = 30;

export class Station {
  /**
   * The station of a depth over a module that is compiled.
   * @param {WebAssembly.Module} compiled
   * @param {number} depth
   * @throws {Error} where there is none
   */
  constructor(compiled, depth) {
    this.exports = /** @type {Exports & WebAssembly.Exports} */ (new WebAssembly.Instance(compiled, {}).exports);
    const room = this.take(HANDLE_BYTES);
    const code = this.exports.camplot_open(depth, room);
    this.handle = new DataView(this.exports.memory.buffer).getBigUint64(Number(room), true);
    this.exports.heap_free(room);
    if (code) throw new Error(`the station cannot be opened: ${code}`);
    this.rows = this.take(ROWS_BYTES);
  }

  close() {
    this.exports.camplot_close(this.handle);
    this.handle = 0n;
  }

  // The memory as it is now: it is another buffer whenever it grew.
  get bytes() {
    return new Uint8Array(this.exports.memory.buffer);
  }

  /** @param {number} count @returns {bigint} */
  take(count) {
    const room = this.exports.heap_alloc(BigInt(count));
    if (room === 0n) throw new RangeError("no memory");
    return room;
  }

  /**
   * A copy of bytes in the module's memory while `use` runs.
   * @param {Uint8Array} bytes
   * @param {(room: bigint, length: bigint) => number} use
   * @returns {number}
   */
  lent(bytes, use) {
    const room = this.take(Math.max(1, bytes.length));
    try {
      this.bytes.set(bytes, Number(room));
      return use(room, BigInt(bytes.length));
    } finally {
      this.exports.heap_free(room);
    }
  }

  /**
   * Applies a line, of bytes, with those of its file where it is a load. Where the page has no memory to hand the bytes in,
   * that is told as the station tells it.
   * @param {Uint8Array} line
   * @param {Uint8Array | null} file
   * @returns {number} the number of its refusal, or 0
   */
  apply(line, file = null) {
    try {
      return this.lent(line, (at, length) => file === null
        ? this.exports.camplot_apply(this.handle, at, length, 0n, 0n)
        : this.lent(file, (from, count) => this.exports.camplot_apply(this.handle, at, length, from, count)));
    } catch (fault) {
      if (fault instanceof RangeError) return NO_MEMORY;
      throw fault;
    }
  }

  /** @param {Uint8Array} question @returns {number} */
  ask(question) {
    return this.lent(question, (at, length) => this.exports.camplot_ask(this.handle, at, length));
  }

  /** @param {number} atMost @returns {number} */
  redraw(atMost) {
    return this.exports.camplot_redraw(this.handle, atMost);
  }

  /** @param {Told} call @returns {Uint8Array} */
  told(call) {
    const length = call(this.handle, 0n, 0n);
    if (length === 0n) return new Uint8Array();
    const room = this.take(Number(length));
    call(this.handle, room, length);
    const copy = this.bytes.slice(Number(room), Number(room + length));
    this.exports.heap_free(room);
    return copy;
  }

  // The line of the last reply with its line feed, and the bytes that the last line or question had for a file.
  get reply() {
    return this.told(this.exports.camplot_reply);
  }

  get file() {
    return this.told(this.exports.camplot_file);
  }

  /**
   * The 64 rows of a clean tile, from the top, in 512 bytes; null where it is dirty or not there.
   * @param {number} layer
   * @param {number} number
   * @returns {Uint8Array | null}
   */
  tile(layer, number) {
    const code = this.exports.camplot_tile(this.handle, layer, number, this.rows);
    return code ? null : this.bytes.slice(Number(this.rows), Number(this.rows) + ROWS_BYTES);
  }

  /**
   * Whether a tile is there and is drawn.
   * @param {number} layer
   * @param {number} number
   * @returns {boolean}
   */
  isClean(layer, number) {
    return this.exports.camplot_tile(this.handle, layer, number, this.rows) === 0;
  }

  get memory() {
    return this.exports.memory.buffer.byteLength;
  }
}

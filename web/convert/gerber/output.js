/** The bytes that are written: what stays is copied, and places are kept whose text is settled at the end. */

import { latin1Bytes } from "../../bytes/index.js";

/** Below this many bytes a loop is faster than a call that copies. */
const FEW = 64;

export class Output {
  /** @param {Uint8Array} source */
  constructor(source) {
    this.source = source;
    this.bytes = new Uint8Array(source.length + 1024);
    this.length = 0;
    /** Where the part of the source begins that is not copied yet. */
    this.copied = 0;
    /** @type {{at: number, slot: import("./dictionary.js").Slot}[]} */
    this.slots = [];
    this.isChanged = false;
  }

  /**
   * Writes a text, or a slot's place, for the source from start to end; what lies before it stays.
   * @param {number} start
   * @param {number} end
   * @param {import("./words.js").Piece[]} pieces
   */
  replace(start, end, pieces) {
    this.copyTo(start);
    for (const piece of pieces) {
      if (typeof piece === "string") {
        this.putText(piece);
      } else {
        this.slots.push({ at: this.length, slot: piece });
      }
    }
    this.copied = end;
    this.isChanged = true;
  }

  /** @param {number} end */
  copyTo(end) {
    const { source, copied } = this;
    this.makeRoom(end - copied);
    if (end - copied < FEW) {
      for (let at = copied; at < end; at++) {
        this.bytes[this.length++] = /** @type {number} */ (source[at]);
      }
    } else {
      this.bytes.set(source.subarray(copied, end), this.length);
      this.length += end - copied;
    }
    this.copied = end;
  }

  /** @param {string} text */
  putText(text) {
    this.makeRoom(text.length);
    for (let at = 0; at < text.length; at++) {
      this.bytes[this.length++] = text.charCodeAt(at);
    }
  }

  /** @param {number} more */
  makeRoom(more) {
    if (this.length + more > this.bytes.length) {
      const grown = new Uint8Array(2 * (this.length + more));
      grown.set(this.bytes.subarray(0, this.length));
      this.bytes = grown;
    }
  }

  /** @returns {Uint8Array} all of it, with the texts of the slots at their places */
  finished() {
    if (!this.isChanged) {
      return this.source;
    }
    this.copyTo(this.source.length);
    const texts = this.slots.map(({ at, slot }) => ({ at, text: latin1Bytes(slot.text) }));
    const whole = new Uint8Array(texts.reduce((sum, { text }) => sum + text.length, this.length));
    let from = 0;
    let to = 0;
    for (const { at, text } of texts) {
      whole.set(this.bytes.subarray(from, at), to);
      to += at - from;
      whole.set(text, to);
      to += text.length;
      from = at;
    }
    whole.set(this.bytes.subarray(from, this.length), to);
    return whole;
  }
}

// The text of an XNC file.

import { ONE } from "./lengths.js";
import { declarationText, unitLine } from "./tools.js";

const LINE_END = 10, POINT = 46, MINUS = 45, ZERO = 48;
// More bytes than a coordinate has.
const ROOM = 32;

/** Bytes that grow as they are written. */
class Bytes {
  constructor() {
    this.bytes = new Uint8Array(65536);
    this.length = 0;
  }

  /** @param {number} count */
  reserve(count) {
    if (this.length + count <= this.bytes.length) return;
    const grown = new Uint8Array(2 * (this.bytes.length + count));
    grown.set(this.bytes.subarray(0, this.length));
    this.bytes = grown;
  }

  /** @param {string} text */
  text(text) {
    this.reserve(text.length);
    for (let at = 0; at < text.length; at++) this.bytes[this.length++] = text.charCodeAt(at);
  }

  /** @param {string} text */
  line(text) {
    this.text(text);
    this.text("\n");
  }

  // Digits of a number below 10^9, at least so many.
  /** @param {number} number @param {number} least */
  digits(number, least) {
    let count = 1;
    for (let rest = number; rest >= 10; rest = Math.floor(rest / 10)) count++;
    count = Math.max(count, least);
    for (let at = this.length + count - 1, rest = number; at >= this.length; at--) {
      const tenth = Math.floor(rest / 10);
      this.bytes[at] = ZERO + rest - 10 * tenth;
      rest = tenth;
    }
    this.length += count;
  }

  // A length, as `lengthText` gives it.
  /** @param {number} length */
  decimal(length) {
    const size = Math.abs(length), whole = Math.floor(size / ONE);
    let rest = size - whole * ONE, places = 9;
    if (length < 0) this.bytes[this.length++] = MINUS;
    this.digits(whole, 1);
    this.bytes[this.length++] = POINT;
    while (places > 1 && rest % 10 === 0) {
      rest /= 10;
      places--;
    }
    this.digits(rest, places);
  }

  /** @param {string} front @param {number} x @param {number} y */
  point(front, x, y) {
    this.text(front);
    this.reserve(2 * ROOM);
    this.bytes[this.length++] = 88;
    this.decimal(x);
    this.bytes[this.length++] = 89;
    this.decimal(y);
    this.bytes[this.length++] = LINE_END;
  }
}

/** @param {Bytes} bytes @param {import("./drilling.js").Drilling} drilling */
function writeItems(bytes, { itemTools, pointCounts, xs, ys }) {
  /** @type {(front: string, at: number) => void} */
  const point = (front, at) => bytes.point(front, /** @type {number} */ (xs[at]), /** @type {number} */ (ys[at]));
  let tool = null, drills = true, at = 0;
  for (let item = 0; item < itemTools.length; item++) {
    if (itemTools[item] !== tool) {
      tool = itemTools[item];
      bytes.line(`T${tool}`);
    }
    const count = /** @type {number} */ (pointCounts[item]);
    if (count === 0) {
      if (!drills) bytes.line("G05");
      point("", at);
      at++;
    } else {
      point("G00", at);
      bytes.line("M15");
      for (let cut = 1; cut < count; cut++) point("G01", at + cut);
      bytes.line("M16");
      at += count;
    }
    drills = count === 0;
  }
}

/**
 * The XNC file of what a drill file tells to do.
 * @param {(string | number)[]} header its comments, and the numbers of its tools, in order
 * @param {import("./drilling.js").Drilling} drilling
 * @returns {Uint8Array}
 */
export function xncBytes(header, drilling) {
  const bytes = new Bytes();
  for (const line of ["M48", unitLine(drilling.unit)]) bytes.line(line);
  for (const entry of header) {
    bytes.line(typeof entry === "string" ? entry : declarationText(entry, /** @type {number} */ (drilling.diameters.get(entry))));
  }
  for (const line of ["%", "G05"]) bytes.line(line);
  writeItems(bytes, drilling);
  bytes.line("M30");
  return bytes.bytes.subarray(0, bytes.length);
}

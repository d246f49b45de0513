// Pictures for tests: PBM files that are made, and PNG files that are read.

import { inflateSync } from "node:zlib";

/**
 * The PBM file whose pixel (column, row) is black where `isBlack(column, row)` is true.
 * @param {number} width
 * @param {number} height
 * @param {(column: number, row: number) => boolean} isBlack
 */
export function pbm(width, height, isBlack) {
  const stride = Math.ceil(width / 8), rows = Buffer.alloc(stride * height);
  for (let row = 0; row < height; row++) {
    for (let column = 0; column < width; column++) {
      if (isBlack(column, row)) rows[row * stride + (column >> 3)] |= 0x80 >> (column & 7);
    }
  }
  return Buffer.concat([Buffer.from(`P4\n${width} ${height}\n`), rows]);
}

/** A picture of that side, black where column and row are from first to before last, multiples of 8. */
export function square(side, first, last) {
  const stride = side / 8, rows = Buffer.alloc(stride * side);
  for (let row = first; row < last; row++) rows.fill(0xff, row * stride + first / 8, row * stride + last / 8);
  return Buffer.concat([Buffer.from(`P4\n${side} ${side}\n`), rows]);
}

/** Numbers from 0 to below 1 that are the same in each run. */
export function chances(seed) {
  let state = seed;
  return () => {
    state = (Math.imul(state, 1103515245) + 12345) >>> 0;
    return (state >>> 8) / 2 ** 24;
  };
}

/** A PNG file of 8 bits a channel, in red, green and blue. */
export class Png {
  /** @param {Buffer} file */
  constructor(file) {
    this.width = file.readUInt32BE(16);
    this.channels = { 2: 3, 6: 4 }[file[25]];
    const parts = [];
    for (let at = 8; at < file.length;) {
      const length = file.readUInt32BE(at);
      if (file.toString("latin1", at + 4, at + 8) === "IDAT") parts.push(file.subarray(at + 8, at + 8 + length));
      at += 12 + length;
    }
    this.stride = this.width * this.channels;
    this.pixels = this.unfiltered(inflateSync(Buffer.concat(parts)), file.readUInt32BE(20));
  }

  // The rows from their filtered bytes (PNG Specification, "Filtering").
  unfiltered(data, height) {
    const { stride, channels } = this, pixels = Buffer.alloc(stride * height);
    for (let row = 0; row < height; row++) {
      const kind = data[row * (stride + 1)];
      for (let at = 0; at < stride; at++) {
        const to = row * stride + at;
        const left = at >= channels ? pixels[to - channels] : 0, above = row ? pixels[to - stride] : 0;
        const corner = at >= channels && row ? pixels[to - stride - channels] : 0;
        const guess = left + above - corner;
        const nearest = [left, above, corner].reduce((best, value) => {
          return Math.abs(guess - value) < Math.abs(guess - best) ? value : best;
        });
        const added = [0, left, above, (left + above) >> 1, nearest][kind];
        pixels[to] = data[row * (stride + 1) + 1 + at] + added;
      }
    }
    return pixels;
  }

  /** The colour of a pixel, as `d8433b`. */
  colour(x, y) {
    const at = Math.floor(y) * this.stride + Math.floor(x) * this.channels;
    return this.pixels.toString("hex", at, at + 3);
  }
}

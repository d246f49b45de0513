// One-bit pictures as what a canvas paints: each pixel of the canvas stands for `samples` by `samples` pixels of the
// picture, 1 or 2, and is as opaque as they are black.

/** @typedef {import("../bytes/index.js").Picture} Picture */

// Of a byte of the upper row and one of the lower, how opaque the four pixels are that stand for their squares.
const squares = new Uint32Array(65536);
for (let pair = 0; pair < 65536; pair++) {
  let four = 0;
  for (let pixel = 0; pixel < 4; pixel++) {
    const shift = 6 - 2 * pixel;
    const both = (pair >> 8 + shift & 3) << 2 | pair >> shift & 3;
    const count = (both & 1) + (both >> 1 & 1) + (both >> 2 & 1) + (both >> 3 & 1);
    four |= ([0, 96, 160, 208][count] ?? 255) << 8 * pixel;
  }
  squares[pair] = four;
}

/** @param {string} colour as `#rrggbb` */
export function inkOf(colour) {
  const value = parseInt(colour.slice(1), 16);
  return (value & 255) << 16 | value & 0xff00 | value >> 16;
}

// The picture of a raw PBM file as `plot` puts it down.
/** @param {Uint8Array} pbm @returns {Picture} */
export function pictureOf(pbm) {
  let at = 3;
  const number = () => {
    let value = 0;
    for (let digit = pbm[at] ?? 0; digit >= 48; digit = pbm[++at] ?? 0) value = 10 * value + digit - 48;
    at++;
    return value;
  };
  const width = number(), height = number();
  return { width, height, stride: width + 7 >> 3, bits: pbm.subarray(at) };
}

// Paints what is black of a picture into the pixels of an image, of `across` pixels a row; answers whether any is.
/** @param {Picture} picture @param {number} samples @param {number} ink @param {Uint32Array} pixels @param {number} across */
export function paint(picture, samples, ink, pixels, across) {
  return samples === 1 ? paintEach(picture, ink, pixels, across) : paintSquares(picture, ink, pixels, across);
}

/** @param {Picture} picture @param {number} ink @param {Uint32Array} pixels @param {number} across */
function paintEach({ height, stride, bits }, ink, pixels, across) {
  const full = (255 << 24 | ink) >>> 0;
  let isAny = false;
  for (let row = 0, at = 0; row < height; row++) {
    const start = row * across;
    for (let column = 0; column < stride; column++, at++) {
      const byte = /** @type {number} */ (bits[at]);
      if (byte === 0) continue;
      isAny = true;
      const to = start + 8 * column;
      for (let pixel = 0; pixel < 8; pixel++) if (byte >> 7 - pixel & 1) pixels[to + pixel] = full;
    }
  }
  return isAny;
}

/** @param {Picture} picture @param {number} ink @param {Uint32Array} pixels @param {number} across */
function paintSquares({ height, stride, bits }, ink, pixels, across) {
  let isAny = false;
  for (let row = 0; row < height; row += 2) {
    const upper = row * stride, lower = upper + stride, start = (row >> 1) * across;
    for (let column = 0; column < stride; column++) {
      // (below the last row there is nothing)
      const pair = (bits[upper + column] ?? 0) << 8 | (bits[lower + column] ?? 0);
      if (pair === 0) continue;
      isAny = true;
      const four = /** @type {number} */ (squares[pair]), to = start + 4 * column;
      pixels[to] = ((four & 255) << 24 | ink) >>> 0;
      pixels[to + 1] = ((four >> 8 & 255) << 24 | ink) >>> 0;
      pixels[to + 2] = ((four >> 16 & 255) << 24 | ink) >>> 0;
      pixels[to + 3] = ((four >>> 24) << 24 | ink) >>> 0;
    }
  }
  return isAny;
}

// Puts the rows of a tile, as the station copies them, into a picture.
/** @param {Picture} picture @param {Uint8Array} rows @param {number} tile */
export function putTile(picture, rows, tile) {
  const { width, height, stride, bits } = picture;
  const columns = width + 63 >> 6, left = tile % columns * 8, top = Math.floor(tile / columns) * 64;
  const bytes = Math.min(8, stride - left);
  for (let row = 0; row < 64 && top + row < height; row++) {
    for (let byte = 0; byte < bytes; byte++) {
      bits[(top + row) * stride + left + byte] = reversed[rows[8 * row + byte] ?? 0] ?? 0;
    }
  }
}

// In a tile the least bit is the leftmost pixel, in a PBM file the greatest.
const reversed = new Uint8Array(256).map((_, byte) => {
  let turned = 0;
  for (let bit = 0; bit < 8; bit++) if (byte >> bit & 1) turned |= 128 >> bit;
  return turned;
});

// Of a byte, how many of its pixels are black.
export const ones = new Uint8Array(256).map((_, byte) => {
  let count = 0;
  for (let rest = byte; rest; rest &= rest - 1) count++;
  return count;
});

// What of two pictures of the same sides stands in both, in the first alone and in the second alone, and how many
// pixels each has.
/** @param {Picture} first @param {Picture} second */
export function compared(first, second) {
  /** @param {(a: number, b: number) => number} choose */
  const part = (choose) => {
    const bits = new Uint8Array(first.bits.length);
    let count = 0;
    for (let at = 0; at < bits.length; at++) {
      const byte = choose(first.bits[at] ?? 0, second.bits[at] ?? 0);
      bits[at] = byte;
      count += ones[byte] ?? 0;
    }
    return { picture: { ...first, bits }, count };
  };
  return [part((a, b) => a & b), part((a, b) => a & ~b & 255), part((a, b) => b & ~a & 255)];
}

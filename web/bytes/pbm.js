// Raw PBM files: pictures of one bit a pixel, 1 for black.

/**
 * The rows of a picture from the top, each of whole bytes, the leftmost pixel in the highest bit.
 * @typedef {{width: number, height: number, stride: number, bits: Uint8Array}} Picture
 */

/** @param {number | undefined} byte  undefined past the end */
const isBlank = (byte) => byte === 32 || byte !== undefined && byte >= 9 && byte <= 13;

/**
 * Whether bytes begin as a raw PBM file.
 * @param {Uint8Array} bytes
 */
export function isPbm(bytes) {
  return bytes[0] === 0x50 && bytes[1] === 0x34 && (isBlank(bytes[2]) || bytes[2] === 35);
}

/**
 * The picture of a raw PBM file, whose words may have comments between them.
 * @param {Uint8Array} bytes
 * @returns {Picture}
 * @throws {Error} which says for people why it is none
 */
export function readPbm(bytes) {
  if (!isPbm(bytes)) throw new Error("it is no raw PBM file");
  let at = 2;
  const number = () => {
    for (; at < bytes.length; at++) {
      if (bytes[at] === 35) while (at < bytes.length && bytes[at] !== 10) at++;
      else if (!isBlank(bytes[at])) break;
    }
    let value = 0;
    const start = at;
    for (let digit = bytes[at] ?? 0; digit >= 48 && digit <= 57 && at < start + 10; digit = bytes[++at] ?? 0) {
      value = 10 * value + digit - 48;
    }
    return value;
  };
  const width = number(), height = number(), stride = Math.ceil(width / 8);
  at++;
  if (width < 1 || height < 1) throw new Error("its sides are no numbers");
  if (bytes.length - at < stride * height) throw new Error("it is cut short");
  const bits = bytes.slice(at, at + stride * height);
  // Bits behind the last column of a row are no pixels.
  const spare = 8 * stride - width;
  if (spare) for (let end = stride - 1; end < bits.length; end += stride) bits[end] &= 255 << spare;
  return { width, height, stride, bits };
}

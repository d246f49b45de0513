// PNG files (PNG Specification): of colours by numbers ("Indexed-color"), and in red, green, blue and opacity ("Truecolor with alpha").

import { deflateSync } from "node:zlib";
import { crc32 } from "../../web/zip/index.js";

const SIGNATURE = Buffer.from([137, 80, 78, 71, 13, 10, 26, 10]);
const INDEXED = 3, WITH_ALPHA = 6;
/** Nanometres in a metre, and the unit of it. */
const METRE = 1e9, PER_METRE = 1;

/** @param {string} kind @param {Uint8Array} data */
function chunk(kind, data) {
  const body = Buffer.concat([Buffer.from(kind, "latin1"), data]), ends = Buffer.alloc(8);
  ends.writeUInt32BE(data.length, 0);
  ends.writeUInt32BE(crc32(body) >>> 0, 4);
  return Buffer.concat([ends.subarray(0, 4), body, ends.subarray(4)]);
}

// A file of rows, each after the number of its filter, with what stands before them.
/** @param {{width: number, height: number, depth: number, kind: number}} form @param {Buffer[]} before @param {Uint8Array} rows */
function fileOf({ width, height, depth, kind }, before, rows) {
  const head = Buffer.alloc(13);
  head.writeUInt32BE(width, 0);
  head.writeUInt32BE(height, 4);
  head.set([depth, kind, 0, 0, 0], 8);
  return Buffer.concat([SIGNATURE, chunk("IHDR", head), ...before, chunk("IDAT", deflateSync(rows)), chunk("IEND", Buffer.alloc(0))]);
}

// Rows of whole bytes with a filter that changes nothing before each.
/** @param {Uint8Array} pixels @param {number} bytes @param {number} height */
function unfiltered(pixels, bytes, height) {
  const rows = Buffer.alloc((bytes + 1) * height);
  for (let row = 0; row < height; row++) rows.set(pixels.subarray(row * bytes, (row + 1) * bytes), row * (bytes + 1) + 1);
  return rows;
}

/** @param {string[]} colours */
const paletteOf = (colours) => chunk("PLTE", Buffer.from(colours.map((colour) => colour.slice(1)).join(""), "hex"));

/**
 * The PNG file of pixels.
 * @param {number} width
 * @param {number} height
 * @param {Uint8Array} pixels each the number of its colour, by rows from the top
 * @param {string[]} colours as `#d8433b`
 * @returns {Buffer}
 */
export function pngOfColours(width, height, pixels, colours) {
  return fileOf({ width, height, depth: 8, kind: INDEXED }, [paletteOf(colours)], unfiltered(pixels, width, height));
}

/**
 * The PNG file of pixels of four bits, of which those of number 0 are transparent, with the length of a pixel's side.
 * @param {{width: number, height: number, pitch: number}} window its pitch in nm
 * @param {Uint8Array} rows the left one of two pixels in the upper half of a byte, a byte of 0 before each row
 * @param {string[]} colours at most 16
 * @returns {Buffer}
 */
export function pngOfMaterials({ width, height, pitch }, rows, colours) {
  const lengths = Buffer.alloc(9);
  lengths.writeUInt32BE(Math.round(METRE / pitch), 0);
  lengths.writeUInt32BE(Math.round(METRE / pitch), 4);
  lengths[8] = PER_METRE;
  const before = [chunk("pHYs", lengths), paletteOf(colours), chunk("tRNS", Buffer.from([0]))];
  return fileOf({ width, height, depth: 4, kind: INDEXED }, before, rows);
}

/**
 * The PNG file of pixels in red, green, blue and opacity.
 * @param {import("../../web/materials/index.js").Colours} picture
 * @returns {Buffer}
 */
export function pngWithAlpha({ width, height, pixels }) {
  return fileOf({ width, height, depth: 8, kind: WITH_ALPHA }, [], unfiltered(pixels, 4 * width, height));
}

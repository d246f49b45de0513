// Which material each pixel of a side of a board has, from the pictures of its layers. docs/page.md, "Materials", has the same
// definition; tools/tests/test_materials.js has it once more, pixel by pixel.

import { checkSides, mirroredBits, white } from "./bits.js";

/** @typedef {import("./bits.js").Bits} Bits */

/** What people call the materials, by their numbers. Where there is nothing one sees through the board, or past it. */
export const MATERIALS = ["nothing", "laminate", "mask", "mask over copper", "copper", "silkscreen", "plated wall"];

/** How thick the plating of a hole is taken to be, in nm, and at least and at most how many pixels of a picture. */
const WALL_NM = 25_000, LEAST_WALL = 1, MOST_WALL = 16;

/**
 * The pictures of a side, all of one window, seen from above. `board` is black within the outline; `mask` where the mask opens, and
 * null where there is no mask; `plated` and `nonplated` in holes through all of the board.
 * @typedef {{board: Bits, copper: Bits | null, mask: Bits | null, silkscreen: Bits | null, plated: Bits | null,
 *   nonplated: Bits | null}} SidePictures
 */

/**
 * The number of each pixel's material, one bit of it in each picture: that of 1, of 2 and of 4.
 * @typedef {{width: number, height: number, planes: [Bits, Bits, Bits]}} Materials
 */

/**
 * How many pixels the wall of a plated hole is wide.
 * @param {number} pitch in nm
 */
export function wallPixels(pitch) {
  return Math.max(LEAST_WALL, Math.min(MOST_WALL, Math.round(WALL_NM / pitch)));
}

// For each row of a disc how far it reaches to both sides of its middle, from its middle row on.
/** @param {number} radius */
const reachesOf = (radius) => Array.from({ length: radius + 1 }, (_, away) => Math.floor(Math.sqrt(radius * radius - away * away)));

// The pixels of a word for which a pixel that is no hole lies so near in a row; beyond the picture all is taken as hole.
/** @param {Bits} holes @param {number} row @param {number} column of words @param {number} reach */
function openingsNear({ width, stride, words }, row, column, reach) {
  const at = row * stride + column, isLast = column === stride - 1, spare = 32 * stride - width;
  const real = (/** @type {boolean} */ isEnd) => (isEnd && spare ? 0xffffffff << spare : 0xffffffff);
  const own = ~/** @type {number} */ (words[at]) & real(isLast), left = column ? ~/** @type {number} */ (words[at - 1]) : 0;
  const right = isLast ? 0 : ~/** @type {number} */ (words[at + 1]) & real(column === stride - 2);
  let found = own;
  if (!(own | left | right)) return 0;
  for (let step = 1; step <= reach; step++) {
    found |= own << step | right >>> (32 - step) | own >>> step | left << (32 - step);
  }
  return found;
}

// The pixels of a word of plated holes that are no farther from one that is no plated hole than the wall is wide.
/** @param {Bits} holes @param {number} row @param {number} column of words @param {number[]} reaches */
function wallOf(holes, row, column, reaches) {
  const word = /** @type {number} */ (holes.words[row * holes.stride + column]);
  let found = 0;
  for (let away = 0; away < reaches.length && (found & word) !== word; away++) {
    const reach = /** @type {number} */ (reaches[away]);
    if (row >= away) found |= openingsNear(holes, row - away, column, reach);
    if (row + away < holes.height) found |= openingsNear(holes, row + away, column, reach);
  }
  return found & word;
}

/**
 * The material of each pixel of a side.
 * @param {SidePictures} pictures
 * @param {number} pitch in nm
 * @returns {Materials}
 * @throws {Error} where the pictures are of several windows
 */
export function materialsOf({ board, copper, mask, silkscreen, plated, nonplated }, pitch) {
  const { width, height, stride } = board;
  /** @type {Materials["planes"]} */
  const planes = [white(width, height), white(width, height), white(width, height)];
  for (const picture of [copper, mask, silkscreen, plated, nonplated]) if (picture) checkSides(board, picture);
  const [{ words: ones }, { words: twos }, { words: fours }] = planes, reaches = reachesOf(wallPixels(pitch));
  const within = board.words, none = new Uint32Array(within.length), wordsOf = (/** @type {Bits | null} */ picture) => picture?.words ?? none;
  const coppers = wordsOf(copper), openings = wordsOf(mask), prints = wordsOf(silkscreen), platedHoles = wordsOf(plated);
  const otherHoles = wordsOf(nonplated);
  for (let at = 0, column = 0, row = 0; at < within.length; at++) {
    const inside = within[at];
    if (inside) {
      const through = /** @type {number} */ (platedHoles[at]), undrilled = inside & ~/** @type {number} */ (otherHoles[at]);
      const isOpen = /** @type {number} */ (openings[at]), isCopper = /** @type {number} */ (coppers[at]);
      const wall = plated && through & undrilled ? wallOf(plated, row, column, reaches) & undrilled : 0;
      const solid = undrilled & ~through;
      const print = solid & /** @type {number} */ (prints[at]) & ~isOpen, rest = solid & ~print, bare = mask ? rest & isOpen : rest, covered = rest & ~bare;
      // Laminate is 1, mask 2, mask over copper 3, copper 4, silkscreen 5, wall 6.
      ones[at] = bare & ~isCopper | covered & isCopper | print;
      twos[at] = covered | wall;
      fours[at] = bare & isCopper | print | wall;
    }
    if (++column === stride) {
      column = 0;
      row++;
    }
  }
  return { width, height, planes };
}

/**
 * The materials as seen from below.
 * @param {Materials} materials
 * @returns {Materials}
 */
export function mirrored({ width, height, planes: [ones, twos, fours] }) {
  return { width, height, planes: [mirroredBits(ones), mirroredBits(twos), mirroredBits(fours)] };
}

// Eight pixels of a plane, each in four bits.
const SPREAD = Uint32Array.from({ length: 256 }, (_, byte) => {
  let spread = 0;
  for (let bit = 0; bit < 8; bit++) spread |= (byte >> bit & 1) << 4 * bit;
  return spread;
});

/** @param {number} byte */
const spreadOf = (byte) => /** @type {number} */ (SPREAD[byte]);

/**
 * The materials in rows of four bits a pixel, the left one of two in the upper half of their byte, with room before each row.
 * @param {Materials} materials
 * @param {number} [before] how many bytes of 0 stand before each row
 * @returns {Uint8Array}
 */
export function nibbleRows({ width, height, planes }, before = 0) {
  const bytes = Math.ceil(width / 2), length = before + bytes, made = new Uint8Array(length * height);
  const [{ words: ones, stride }, { words: twos }, { words: fours }] = planes;
  for (let row = 0; row < height; row++) {
    let to = row * length + before;
    const end = to + bytes;
    for (let at = row * stride; to < end; at++) {
      const one = /** @type {number} */ (ones[at]), two = /** @type {number} */ (twos[at]), four = /** @type {number} */ (fours[at]);
      if (!(one | two | four)) {
        to += 16;
        continue;
      }
      for (let shift = 24; shift >= 0 && to < end; shift -= 8) {
        const eight = spreadOf(one >>> shift & 255) | spreadOf(two >>> shift & 255) << 1 | spreadOf(four >>> shift & 255) << 2;
        made[to++] = eight >>> 24;
        if (to < end) made[to++] = eight >>> 16;
        if (to < end) made[to++] = eight >>> 8;
        if (to < end) made[to++] = eight;
      }
    }
  }
  return made;
}

/**
 * The number of a pixel's material.
 * @param {Materials} materials
 * @param {number} column
 * @param {number} row
 */
export function materialAt({ planes }, column, row) {
  return planes.reduce((number, { stride, words }, place) => {
    return number | ((words[row * stride + (column >> 5)] ?? 0) >>> (31 - (column & 31)) & 1) << place;
  }, 0);
}

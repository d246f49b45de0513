// What lies within the outline of a board: the pixels of the board, by those of the outline's lines.

import { Union } from "../nets/index.js";
import { blacken, white } from "./bits.js";

/** @typedef {import("./bits.js").Bits} Bits */

/** A picture with more runs than these is no outline. */
const MOST_RUNS = 1 << 25;

/**
 * The rows of a picture in runs, white and black by turns: those of row r are from `offsets[r]` to before `offsets[r + 1]`. Run
 * `at` begins at the column `starts[at]` and ends where the next one begins, and `isBlack[at]` is 1 or 0.
 * @typedef {{width: number, height: number, offsets: Int32Array, starts: Uint16Array, isBlack: Uint8Array}} Alternating
 */

// A word has a 1 where a pixel differs from the one to its left; that of the first one is white.
/** @param {number} word @param {number} before the word to its left */
const changesOf = (word, before) => word ^ (word >>> 1 | before << 31);

// The bits that are 1 in a word.
/** @param {number} word */
function countOf(word) {
  const pairs = word - (word >>> 1 & 0x55555555), fours = (pairs & 0x33333333) + (pairs >>> 2 & 0x33333333);
  return Math.imul(fours + (fours >>> 4) & 0x0f0f0f0f, 0x01010101) >>> 24;
}

// A word of a row; the bits after its last column continue its last pixel, so that no run begins there.
/** @param {Bits} picture @param {number} row @param {number} column of words */
function wordAt({ width, stride, words }, row, column) {
  const word = /** @type {number} */ (words[row * stride + column]), spare = 32 * stride - width;
  if (!spare || column < stride - 1) return word;
  return word >>> spare & 1 ? word | ~(0xffffffff << spare) : word;
}

/** @param {Bits} picture */
function runCount(picture) {
  const { height, stride } = picture;
  let count = 0;
  for (let row = 0; row < height; row++) {
    let before = 0;
    count++;
    for (let column = 0; column < stride; column++) {
      const word = wordAt(picture, row, column), changes = changesOf(word, before);
      // A first pixel that is black begins the row's first run.
      count += countOf(column ? changes : changes & 0x7fffffff);
      before = word;
    }
  }
  return count;
}

/** @param {Bits} picture @param {number} count @returns {Alternating} */
function runsOf(picture, count) {
  const { width, height, stride } = picture;
  const offsets = new Int32Array(height + 1), starts = new Uint16Array(count), isBlack = new Uint8Array(count);
  let at = 0;
  for (let row = 0; row < height; row++) {
    let before = 0, black = wordAt(picture, row, 0) >>> 31;
    isBlack[at++] = black;
    for (let column = 0; column < stride; column++) {
      const word = wordAt(picture, row, column);
      let changes = changesOf(word, before) & (column ? 0xffffffff : 0x7fffffff);
      for (; changes; at++) {
        const place = Math.clz32(changes);
        starts[at] = column * 32 + place;
        isBlack[at] = black ^= 1;
        changes &= ~(0x80000000 >>> place);
      }
      before = word;
    }
    offsets[row + 1] = at;
  }
  return { width, height, offsets, starts, isBlack };
}

// The pieces of both colours: white ones hang together by edges, black ones by edges and corners, as a line does. What is white
// around a whole picture is one piece with what is white at its sides, and has the number 0; run `at` has the number at + 1.
/** @param {Alternating} runs @param {boolean} isWhole @returns {Union} */
function piecesOf({ width, height, offsets, starts, isBlack }, isWhole) {
  const pieces = new Union(starts.length + 1);
  const endOf = (/** @type {number} */ at, /** @type {number} */ end) => (at + 1 < end ? /** @type {number} */ (starts[at + 1]) : width);
  for (let row = 0, above = 0, first = 0; row < height; row++) {
    const end = /** @type {number} */ (offsets[row + 1]), isAtSide = row === 0 || row === height - 1;
    for (let at = first; at < end; at++) {
      const black = /** @type {number} */ (isBlack[at]), until = endOf(at, end) + black, from = /** @type {number} */ (starts[at]) - black;
      if (isWhole && !black && (isAtSide || at === first || at === end - 1)) pieces.join(0, at + 1);
      if (row === 0) continue;
      while (endOf(above, first) <= from) above++;
      for (let touched = above; touched < first && /** @type {number} */ (starts[touched]) < until; touched++) {
        if (isBlack[touched] === black) pieces.join(touched + 1, at + 1);
      }
    }
    above = first;
    first = end;
  }
  return pieces;
}

// Which pieces are board, by their numbers. The first run of a piece has the piece that it lies in to its left.
/** @param {Alternating} runs @param {Union} pieces */
function boardPieces({ starts, isBlack }, pieces) {
  const isBoard = new Uint8Array(starts.length + 1), holder = new Int32Array(starts.length + 1), encloses = new Uint8Array(starts.length + 1);
  let isAny = false;
  for (let at = 0; at < starts.length; at++) {
    const piece = at + 1;
    if (pieces.find(piece) !== piece) continue;
    const held = starts[at] === 0 ? 0 : pieces.find(at);
    holder[piece] = held;
    if (isBlack[at]) {
      // A line in the board is board; one around board becomes it below.
      isBoard[piece] = /** @type {number} */ (isBoard[held]);
      continue;
    }
    isBoard[piece] = /** @type {number} */ (isBoard[/** @type {number} */ (holder[held])]) ^ 1;
    encloses[held] = 1;
    isAny = true;
  }
  for (let piece = 1; piece <= starts.length; piece++) if (encloses[piece]) isBoard[piece] = 1;
  return isAny ? isBoard : null;
}

/**
 * The pixels of a board by the picture of its outline: what can't be reached from the sides of the picture, by steps over edges
 * of pixels, without crossing black; but within a closed line in the board it is a cutout, and in one in a cutout board again.
 * Black pixels are board where their line touches board: it lies in board, or encloses something.
 * @param {Bits} outline
 * @returns {Bits | null} null where no line is closed
 */
export function withinOutline(outline) {
  const count = runCount(outline);
  if (count > MOST_RUNS) return null;
  const runs = runsOf(outline, count), pieces = piecesOf(runs, true), isBoard = boardPieces(runs, pieces);
  return isBoard && picked(runs, (at) => isBoard[pieces.find(at + 1)] === 1);
}

/**
 * The same of a part of an outline, all of whose lines enclose something: its black pixels, and each white piece whose pixel, the
 * middle of its longest run, is said to be board.
 * @param {Bits} lines
 * @param {(column: number, row: number) => boolean} isBoardAt
 * @returns {Bits}
 */
export function withinPart(lines, isBoardAt) {
  const runs = runsOf(lines, runCount(lines)), pieces = piecesOf(runs, false), { width, height, offsets, starts, isBlack } = runs;
  /** @type {Map<number, {length: number, column: number, row: number}>} */
  const longest = new Map();
  for (let row = 0, at = 0; row < height; row++) {
    for (const end = /** @type {number} */ (offsets[row + 1]); at < end; at++) {
      const from = /** @type {number} */ (starts[at]), length = (at + 1 < end ? /** @type {number} */ (starts[at + 1]) : width) - from, piece = pieces.find(at + 1);
      if (!isBlack[at] && length > (longest.get(piece)?.length ?? 0)) longest.set(piece, { length, column: from + (length >> 1), row });
    }
  }
  const board = new Set([...longest].filter(([, { column, row }]) => isBoardAt(column, row)).map(([piece]) => piece));
  return picked(runs, (at) => isBlack[at] === 1 || board.has(pieces.find(at + 1)));
}

// The picture that is black where these runs are.
/** @param {Alternating} runs @param {(at: number) => boolean} isPicked */
function picked({ width, height, offsets, starts }, isPicked) {
  const made = white(width, height);
  for (let row = 0, at = 0; row < height; row++) {
    for (const end = /** @type {number} */ (offsets[row + 1]); at < end; at++) {
      if (isPicked(at)) blacken(made, row, /** @type {number} */ (starts[at]), at + 1 < end ? /** @type {number} */ (starts[at + 1]) : width);
    }
  }
  return made;
}

/**
 * A picture that is black in a box of pixels.
 * @param {number} width
 * @param {number} height
 * @param {{left: number, top: number, right: number, low: number}} box
 * @returns {Bits}
 */
export function boxBits(width, height, { left, top, right, low }) {
  const made = white(width, height);
  for (let row = Math.max(0, top); row < Math.min(height, low); row++) blacken(made, row, left, right);
  return made;
}

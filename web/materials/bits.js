// Pictures of one bit a pixel in words of 32 pixels, so that a step of a computation takes 32 pixels at once.

/**
 * The rows of a picture from the top, each of whole words, the leftmost pixel in the highest bit. Bits after the last column of a
 * row are 0.
 * @typedef {{width: number, height: number, stride: number, words: Uint32Array}} Bits
 */

/**
 * A white picture.
 * @param {number} width
 * @param {number} height
 * @returns {Bits}
 */
export function white(width, height) {
  const stride = Math.ceil(width / 32);
  return { width, height, stride, words: new Uint32Array(stride * height) };
}

/**
 * A picture in words.
 * @param {import("../bytes/index.js").Picture} picture
 * @returns {Bits}
 */
export function bitsOf({ width, height, stride: bytes, bits }) {
  const made = white(width, height), { stride, words } = made, whole = bytes >> 2;
  const byte = (/** @type {number} */ at) => /** @type {number} */ (bits[at]);
  for (let row = 0; row < height; row++) {
    let from = row * bytes, to = row * stride;
    for (const end = to + whole; to < end; to++, from += 4) {
      words[to] = byte(from) << 24 | byte(from + 1) << 16 | byte(from + 2) << 8 | byte(from + 3);
    }
    for (let left = bytes & 3, shift = 24; left > 0; left--, shift -= 8) words[to] |= byte(from++) << shift;
  }
  return made;
}

/**
 * Makes a picture black where another one of the same sides is.
 * @param {Bits} into
 * @param {Bits} other
 */
export function addBlack(into, other) {
  checkSides(into, other);
  for (let at = 0; at < into.words.length; at++) into.words[at] |= /** @type {number} */ (other.words[at]);
}

/**
 * What is black in any of some pictures; null where there is none.
 * @param {Bits[]} pictures
 * @returns {Bits | null}
 */
export function joinedBits([first, ...others]) {
  if (!first || !others.length) return first ?? null;
  const made = { ...first, words: first.words.slice() };
  for (const other of others) addBlack(made, other);
  return made;
}

/**
 * @param {Bits} one
 * @param {Bits} other
 * @throws {Error} where two pictures have other sides
 */
export function checkSides(one, other) {
  if (one.width !== other.width || one.height !== other.height) {
    throw new Error(`pictures of ${one.width} by ${one.height} and of ${other.width} by ${other.height} pixels are of two windows`);
  }
}

/**
 * Makes the pixels of a row black from a column to before another one; what lies outside of the picture is left out.
 * @param {Bits} picture
 * @param {number} row
 * @param {number} from
 * @param {number} until
 */
export function blacken({ width, stride, words }, row, from, until) {
  const first = Math.max(0, from), last = Math.min(width, until) - 1;
  if (first > last) return;
  const start = row * stride + (first >> 5), end = row * stride + (last >> 5);
  const head = 0xffffffff >>> (first & 31), tail = 0xffffffff << (31 - (last & 31));
  if (start === end) {
    words[start] |= head & tail;
    return;
  }
  words[start] |= head;
  words.fill(0xffffffff, start + 1, end);
  words[end] |= tail;
}

/**
 * The least box of pixels around all that is black: its first column and row, and those after its last; null where nothing is.
 * @param {Bits} picture
 * @returns {{left: number, top: number, right: number, low: number} | null}
 */
export function blackBox({ width, height, stride, words }) {
  let left = width, right = 0, top = height, low = 0;
  for (let row = 0; row < height; row++) {
    const start = row * stride, end = start + stride;
    let first = start, last = end - 1;
    while (first < end && words[first] === 0) first++;
    if (first === end) continue;
    while (words[last] === 0) last--;
    const firstWord = words[first] ?? 0, lastWord = words[last] ?? 0;
    left = Math.min(left, (first - start) * 32 + Math.clz32(firstWord));
    right = Math.max(right, (last - start) * 32 + Math.clz32(lastWord & -lastWord) + 1);
    top = Math.min(top, row);
    low = row + 1;
  }
  return top < low ? { left, top, right, low } : null;
}

/**
 * A part of a picture: so many columns and rows from a column and a row on, all in it; of a coarse picture, whose pixels have the
 * side of some of the part, each as often.
 * @param {Bits} picture
 * @param {{column: number, row: number, width: number, height: number}} part
 * @param {number} [times] how many pixels of the part, counted from its first ones, a pixel of the picture stands for
 * @returns {Bits}
 */
export function cropped({ stride, words }, { column: left, row: top, width, height }, times = 1) {
  const made = white(width, height);
  for (let row = 0; row < height; row++) {
    const from = Math.floor((top + row) / times) * stride, to = row * made.stride;
    for (let column = 0; column < width; column++) {
      const at = Math.floor((left + column) / times);
      if (/** @type {number} */ (words[from + (at >> 5)]) >>> (31 - (at & 31)) & 1) made.words[to + (column >> 5)] |= 0x80000000 >>> (column & 31);
    }
  }
  return made;
}

/**
 * A picture mirrored left to right.
 * @param {Bits} picture
 * @returns {Bits}
 */
export function mirroredBits({ width, height, stride, words }) {
  const made = white(width, height), spare = 32 * stride - width;
  for (let row = 0; row < height; row++) {
    // The reversed words of the row have its spare bits in front; what each lacks on its right comes from the next.
    const start = row * stride, last = start + stride - 1;
    let word = reversed(/** @type {number} */ (words[last]));
    for (let at = start; at <= last; at++) {
      const next = at < last ? reversed(/** @type {number} */ (words[last - (at - start) - 1])) : 0;
      made.words[at] = spare ? word << spare | next >>> (32 - spare) : word;
      word = next;
    }
  }
  return made;
}

// The bits of a word in the other order.
/** @param {number} word */
function reversed(word) {
  let bits = word;
  bits = bits >>> 1 & 0x55555555 | (bits & 0x55555555) << 1;
  bits = bits >>> 2 & 0x33333333 | (bits & 0x33333333) << 2;
  bits = bits >>> 4 & 0x0f0f0f0f | (bits & 0x0f0f0f0f) << 4;
  bits = bits >>> 8 & 0x00ff00ff | (bits & 0x00ff00ff) << 8;
  return bits >>> 16 | bits << 16;
}

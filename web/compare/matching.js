// Which items two lists have in common: as multisets, and so that neighbours stay neighbours where an item stands in a list
// several times. Paul Heckel, "A technique for isolating differences between files" (1978): what stands once in both lists is
// the same item; so is what stands next to the same item in both; what is left is taken in order. All is linear.

/**
 * @typedef {object} Matching
 * @property {Int32Array} places for each item of the first list its place in the second, or -1
 * @property {number[]} went the places in the first list of what the second lacks
 * @property {number[]} came the places in the second list of what the first lacks
 */

/**
 * The same number for equal texts, in both lists.
 * @param {readonly string[]} first
 * @param {readonly string[]} second
 */
function numbered(first, second) {
  /** @type {Map<string, number>} */
  const known = new Map();
  const numbersOf = (/** @type {readonly string[]} */ items) => Int32Array.from(items, (text) => {
    let number = known.get(text);
    if (number === undefined) known.set(text, number = known.size);
    return number;
  });
  return { one: numbersOf(first), other: numbersOf(second), count: known.size };
}

/** Pairs of places of two lists of numbers. */
class Pairs {
  /** @param {Int32Array} one @param {Int32Array} other */
  constructor(one, other) {
    this.one = one;
    this.other = other;
    this.places = new Int32Array(one.length).fill(-1);
    this.isTaken = new Uint8Array(other.length);
  }

  /**
   * Takes a pair where both are free and equal.
   * @param {number} at
   * @param {number} place
   */
  take(at, place) {
    if (at < 0 || place < 0 || at >= this.one.length || place >= this.other.length) return false;
    if (/** @type {number} */ (this.places[at]) >= 0 || this.isTaken[place] || this.one[at] !== this.other[place]) return false;
    this.places[at] = place;
    this.isTaken[place] = 1;
    return true;
  }

  // What stands once in both lists.
  /** @param {number} count */
  single(count) {
    const { one, other } = this, inOne = new Int32Array(count), inOther = new Int32Array(count), at = new Int32Array(count);
    one.forEach((number, place) => {
      if (/** @type {number} */ (this.places[place]) < 0) inOne[number]++;
    });
    other.forEach((number, place) => {
      if (this.isTaken[place]) return;
      inOther[number]++;
      at[number] = place;
    });
    one.forEach((number, place) => {
      if (inOne[number] === 1 && inOther[number] === 1) this.take(place, /** @type {number} */ (at[number]));
    });
  }

  // The neighbours of pairs.
  neighbours() {
    const { places } = this, placeOf = (/** @type {number} */ at) => /** @type {number} */ (places[at]);
    for (let at = 0; at + 1 < places.length; at++) if (placeOf(at) >= 0) this.take(at + 1, placeOf(at) + 1);
    for (let at = places.length - 1; at > 0; at--) if (placeOf(at) >= 0) this.take(at - 1, placeOf(at) - 1);
  }

  // What is left and equal, in order.
  /** @param {number} count */
  rest(count) {
    const { other, places, isTaken } = this, first = new Int32Array(count).fill(-1), next = new Int32Array(other.length);
    for (let place = other.length - 1; place >= 0; place--) {
      if (isTaken[place]) continue;
      const number = /** @type {number} */ (other[place]);
      next[place] = /** @type {number} */ (first[number]);
      first[number] = place;
    }
    this.one.forEach((number, at) => {
      const place = /** @type {number} */ (first[number]);
      if (/** @type {number} */ (places[at]) >= 0 || place < 0) return;
      first[number] = /** @type {number} */ (next[place]);
      this.take(at, place);
    });
  }
}

/** @param {readonly string[]} one @param {readonly string[]} other how many items both begin with, and end with */
function commonEnds(one, other) {
  const least = Math.min(one.length, other.length);
  let begin = 0, end = 0;
  while (begin < least && one[begin] === other[begin]) begin++;
  while (end < least - begin && one[one.length - 1 - end] === other[other.length - 1 - end]) end++;
  return { begin, end };
}

/**
 * Which items of a list are those of another.
 * @param {readonly string[]} first
 * @param {readonly string[]} second
 * @returns {Matching}
 */
export function matched(first, second) {
  const { begin, end } = commonEnds(first, second), shift = second.length - first.length;
  const { one, other, count } = numbered(first.slice(begin, first.length - end), second.slice(begin, second.length - end));
  const pairs = new Pairs(one, other);
  pairs.single(count);
  pairs.neighbours();
  pairs.rest(count);
  const places = Int32Array.from(first.keys(), (at) => (at < begin ? at : at + shift));
  /** @type {number[]} */
  const went = [];
  /** @type {number[]} */
  const came = [];
  pairs.places.forEach((place, at) => {
    places[begin + at] = place < 0 ? -1 : begin + place;
    if (place < 0) went.push(begin + at);
  });
  pairs.isTaken.forEach((taken, at) => {
    if (!taken) came.push(begin + at);
  });
  return { places, went, came };
}

/**
 * The places of a longest subsequence of numbers none of which is less than the one before.
 * @param {ArrayLike<number>} numbers
 * @returns {Uint8Array} 1 where a number belongs to it
 */
export function longestRising(numbers) {
  /** @type {number[]} */
  const ends = [];
  const before = new Int32Array(numbers.length), isIn = new Uint8Array(numbers.length);
  for (let at = 0; at < numbers.length; at++) {
    const number = /** @type {number} */ (numbers[at]);
    let low = 0, high = ends.length;
    while (low < high) {
      const middle = (low + high) >> 1;
      if (/** @type {number} */ (numbers[/** @type {number} */ (ends[middle])]) <= number) low = middle + 1;
      else high = middle;
    }
    before[at] = ends[low - 1] ?? -1;
    ends[low] = at;
  }
  for (let at = ends.at(-1) ?? -1; at >= 0; at = /** @type {number} */ (before[at])) isIn[at] = 1;
  return isIn;
}

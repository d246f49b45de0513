// Which pieces of two bands touch.


/** @typedef {import("./runs.js").Band} Band */
/** @typedef {{below?: Int32Array, through?: Int32Array}} Pairs of two bands, as far as they were asked for */

/**
 * The pairs of a band with others, which are kept while both bands are.
 * @type {WeakMap<Band, WeakMap<Band, Pairs>>}
 */
const kept = new WeakMap();

/**
 * @param {keyof Pairs} kind
 * @param {Band} one
 * @param {Band} other
 * @param {() => Int32Array} find
 */
function remembered(kind, one, other, find) {
  let ofOne = kept.get(one);
  if (!ofOne) kept.set(one, ofOne = new WeakMap());
  let ofOther = ofOne.get(other);
  if (!ofOther) ofOne.set(other, ofOther = {});
  return ofOther[kind] ??= find();
}

/**
 * The pieces of runs of two rows that share a column, as [one, other, one, other ..].
 * @param {Band} one
 * @param {number} oneRow
 * @param {Band} other
 * @param {number} otherRow
 * @param {number[]} pairs where they are added
 */
function pairsOfRows(one, oneRow, other, otherRow, pairs) {
  let below = /** @type {number} */ (other.offsets[otherRow]);
  const last = /** @type {number} */ (other.offsets[otherRow + 1]);
  for (let at = /** @type {number} */ (one.offsets[oneRow]), end = /** @type {number} */ (one.offsets[oneRow + 1]); at < end; at++) {
    while (below < last && /** @type {number} */ (other.ends[below]) <= /** @type {number} */ (one.starts[at])) below++;
    for (let touched = below; touched < last && /** @type {number} */ (other.starts[touched]) < /** @type {number} */ (one.ends[at]); touched++) {
      const a = /** @type {number} */ (one.labels[at]), b = /** @type {number} */ (other.labels[touched]), size = pairs.length;
      if (!size || pairs[size - 2] !== a || pairs[size - 1] !== b) pairs.push(a, b);
    }
  }
}

/**
 * The pieces of a band and of the one below it that touch by an edge, as [upper, lower, upper, lower ..].
 * @param {Band} upper
 * @param {Band} lower
 * @returns {Int32Array}
 */
export function pairsBelow(upper, lower) {
  return remembered("below", upper, lower, () => {
    /** @type {number[]} */
    const pairs = [];
    pairsOfRows(upper, upper.rows - 1, lower, 0, pairs);
    return Int32Array.from(pairs);
  });
}

/**
 * The holes of a band and the pieces of copper in the same rows that have a pixel in common, as [hole, piece, ..].
 * @param {Band} holes
 * @param {Band} copper
 * @returns {Int32Array}
 */
export function pairsThrough(holes, copper) {
  return remembered("through", holes, copper, () => {
    /** @type {number[]} */
    const pairs = [];
    for (let row = 0; row < holes.rows; row++) pairsOfRows(holes, row, copper, row, pairs);
    return Int32Array.from(pairs);
  });
}

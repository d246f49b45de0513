// Two lists side by side, as far as both go.

/**
 * @template A, B
 * @param {readonly A[]} some
 * @param {readonly B[]} others
 * @returns {[A, B][]}
 */
export const pairs = (some, others) => some.flatMap((one, at) => {
  const other = others[at];
  return other === undefined ? [] : [/** @type {[A, B]} */ ([one, other])];
});

// Long work in steps, so that a worker hears between two of them that it is to stop.

/**
 * Steps, and what they come to.
 * @template T
 * @typedef {Generator<undefined, T>} Steps
 */

/**
 * Takes all steps one after another.
 * @template T
 * @param {Steps<T>} steps
 * @returns {T}
 */
export function atOnce(steps) {
  let next = steps.next();
  while (!next.done) next = steps.next();
  return next.value;
}

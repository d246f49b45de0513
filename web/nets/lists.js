// What stands at a place of a list that has it.

/**
 * @template T
 * @param {readonly T[]} list
 * @param {number} at
 * @returns {T}
 */
export function elementAt(list, at) {
  const found = list[at];
  if (found === undefined) throw new RangeError(`a list of ${list.length} has no place ${at}`);
  return found;
}

// Lists that stay as they are: each change gives another list, which shares nearly all of its parts with the one before.
// So the lists of a thousand earlier boards of a million items each take little more than the last one.

const PART = 512;

/**
 * @template T
 * @param {readonly T[]} values
 */
function partsOf(values) {
  /** @type {T[][]} */
  const parts = [];
  for (let at = 0; at < values.length; at += PART) parts.push(values.slice(at, at + PART));
  return parts;
}

/**
 * A list of values by their places, from 0.
 * @template T
 */
export class List {
  /**
   * @param {readonly T[][]} parts in order, none of them empty
   * @param {number} length
   */
  constructor(parts, length) {
    this.parts = parts;
    this.length = length;
  }

  /**
   * @template T
   * @param {readonly T[]} values
   * @returns {List<T>}
   */
  static of(values) {
    return new List(partsOf(values), values.length);
  }

  /**
   * The part that holds a place, its values, and the place in it; of the end the last part, and of an empty list none.
   * @param {number} place
   * @returns {{part: number, rest: number, values: readonly T[]}}
   */
  find(place) {
    let part = 0, rest = place;
    for (const values of this.parts) {
      if (rest < values.length || part + 1 === this.parts.length) return { part, rest, values };
      rest -= values.length;
      part++;
    }
    return { part, rest, values: [] };
  }

  /** @param {number} place @param {number} length */
  check(place, length) {
    if (!Number.isInteger(place) || place < 0 || place >= length) throw new RangeError(`no place ${place} of ${length}`);
  }

  /** @param {number} place */
  at(place) {
    this.check(place, this.length);
    const { rest, values } = this.find(place);
    return /** @type {T} */ (values[rest]);
  }

  /**
   * The list with other values in place of one part.
   * @param {number} part
   * @param {T[]} values
   * @param {number} length
   * @returns {List<T>}
   */
  changed(part, values, length) {
    const parts = this.parts.slice();
    parts.splice(part, 1, ...(values.length > 2 * PART ? partsOf(values) : values.length ? [values] : []));
    return new List(parts, length);
  }

  /**
   * The list with a value that stands at a place.
   * @param {number} place up to the length
   * @param {T} value
   * @returns {List<T>}
   */
  inserted(place, value) {
    this.check(place, this.length + 1);
    const { part, rest, values } = this.find(place), more = values.slice();
    more.splice(rest, 0, value);
    return this.changed(part, more, this.length + 1);
  }

  /**
   * The list without a place.
   * @param {number} place
   * @returns {List<T>}
   */
  deleted(place) {
    this.check(place, this.length);
    const { part, rest, values } = this.find(place), fewer = values.slice();
    fewer.splice(rest, 1);
    return this.changed(part, fewer, this.length - 1);
  }

  /**
   * The list in which what stood at a place stands at another.
   * @param {number} from
   * @param {number} to
   */
  moved(from, to) {
    return this.deleted(from).inserted(to, this.at(from));
  }

  /** @returns {Generator<T>} the values in order */
  *[Symbol.iterator]() {
    for (const part of this.parts) yield* part;
  }

  toArray() {
    return this.parts.flat();
  }
}

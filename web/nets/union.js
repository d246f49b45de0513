// Sets of numbers that are joined: which belong together.


/** Numbers from 0 to before `count`, each in a set of its own at first. */
export class Union {
  /** @param {number} count */
  constructor(count) {
    this.parents = new Int32Array(count);
    for (let at = 0; at < count; at++) this.parents[at] = at;
  }

  /**
   * The least number of the set of one.
   * @param {number} number
   */
  find(number) {
    const { parents } = this;
    let at = number;
    while (parents[at] !== at) {
      parents[at] = /** @type {number} */ (parents[(/** @type {number} */ (parents[at]))]);
      at = /** @type {number} */ (parents[at]);
    }
    return at;
  }

  /**
   * Makes one set of the two that have these numbers.
   * @param {number} one
   * @param {number} other
   */
  join(one, other) {
    const first = this.find(one), second = this.find(other);
    if (first < second) this.parents[second] = first;
    else this.parents[first] = second;
  }

  /**
   * The sets' numbers, counted from 0 in the order of their least members, for each number below `count`.
   * @param {number} count
   * @returns {{numbers: Int32Array, count: number}}
   */
  numbered(count = this.parents.length) {
    const numbers = new Int32Array(count);
    let next = 0;
    for (let at = 0; at < count; at++) {
      const root = this.find(at);
      numbers[at] = root === at ? next++ : /** @type {number} */ (numbers[root]);
    }
    return { numbers, count: next };
  }
}

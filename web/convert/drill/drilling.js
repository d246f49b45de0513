// What a drill file tells to do: its tools, hits and routs.

/**
 * The tools of a drill file with their diameters, and its hits and routs in order. Lengths are in 10^-9 units. The items lie
 * in columns, since files have a million of them: item n is made by `itemTools[n]`; it is a hit where `pointCounts[n]` is
 * 0, else a rout of so many points; and its points follow those of the items before it in `xs` and `ys`.
 */
export class Drilling {
  /** @param {"mm" | "inch"} unit */
  constructor(unit) {
    this.unit = unit;
    /** @type {Map<number, number>} */
    this.diameters = new Map();
    /** @type {number[]} */
    this.itemTools = [];
    /** @type {number[]} */
    this.pointCounts = [];
    /** @type {number[]} */
    this.xs = [];
    /** @type {number[]} */
    this.ys = [];
    this.routs = 0;
  }

  /** How many hits there are. */
  get hits() {
    return this.itemTools.length - this.routs;
  }

  /**
   * Adds a hit.
   * @param {number} tool
   * @param {number} x
   * @param {number} y
   */
  hit(tool, x, y) {
    this.itemTools.push(tool);
    this.pointCounts.push(0);
    this.xs.push(x);
    this.ys.push(y);
  }

  /**
   * Adds a rout, from each point to the next.
   * @param {number} tool
   * @param {[number, number][]} points
   */
  rout(tool, points) {
    this.itemTools.push(tool);
    this.pointCounts.push(points.length);
    for (const [x, y] of points) {
      this.xs.push(x);
      this.ys.push(y);
    }
    this.routs++;
  }

  /**
   * Whether another does the same.
   * @param {Drilling} other
   */
  isSame(other) {
    return this.unit === other.unit && this.diameters.size === other.diameters.size
      && [...this.diameters].every(([number, diameter]) => other.diameters.get(number) === diameter)
      && areSame(this.itemTools, other.itemTools) && areSame(this.pointCounts, other.pointCounts)
      && areSame(this.xs, other.xs) && areSame(this.ys, other.ys);
  }
}

/** @param {number[]} one @param {number[]} other */
function areSame(one, other) {
  if (one.length !== other.length) return false;
  for (let at = 0; at < one.length; at++) if (one[at] !== other[at]) return false;
  return true;
}

/** What operations say, as they are written: to compare them with what is read again. */

const FIRST_ROOM = 1024;

/** A list of operations, each a code, a mode, an aperture and four whole numbers. */
export class Operations {
  constructor() {
    this.count = 0;
    this.flashes = 0;
    this.draws = 0;
    this.kinds = new Int32Array(FIRST_ROOM);
    this.apertures = new Int32Array(FIRST_ROOM);
    this.numbers = new Float64Array(4 * FIRST_ROOM);
  }

  /**
   * @param {number} code  1 to 3, of D01, D02 and D03
   * @param {number} mode  1 to 3, of G01, G02 and G03; of a draw alone
   * @param {number} aperture  0 where none is used
   * @param {number} x  in steps of the format
   * @param {number} y
   * @param {number} i  of an arc alone
   * @param {number} j
   */
  add(code, mode, aperture, x, y, i, j) {
    if (this.count === this.kinds.length) {
      this.grow();
    }
    const isDraw = code === 1;
    const isArc = isDraw && mode !== 1;
    this.kinds[this.count] = isDraw ? 4 + mode : code;
    this.apertures[this.count] = aperture;
    const at = 4 * this.count;
    this.numbers[at] = x;
    this.numbers[at + 1] = y;
    this.numbers[at + 2] = isArc ? i : 0;
    this.numbers[at + 3] = isArc ? j : 0;
    this.count += 1;
    this.draws += isDraw ? 1 : 0;
    this.flashes += code === 3 ? 1 : 0;
  }

  grow() {
    const room = 2 * this.count;
    this.kinds = grown(this.kinds, new Int32Array(room));
    this.apertures = grown(this.apertures, new Int32Array(room));
    this.numbers = grown(this.numbers, new Float64Array(4 * room));
  }

  /** @param {Operations} other @returns {boolean} whether both lists say the same */
  equals(other) {
    if (this.count !== other.count) {
      return false;
    }
    for (let at = 0; at < this.count; at++) {
      if (this.kinds[at] !== other.kinds[at] || this.apertures[at] !== other.apertures[at]) {
        return false;
      }
    }
    for (let at = 0; at < 4 * this.count; at++) {
      if (this.numbers[at] !== other.numbers[at]) {
        return false;
      }
    }
    return true;
  }
}

/**
 * @template {Int32Array | Float64Array} T
 * @param {T} from
 * @param {T} to  with more room
 */
function grown(from, to) {
  to.set(from);
  return to;
}

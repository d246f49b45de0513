// The pixels in which two pictures of one window differ.

/** @typedef {import("../board/index.js").Box} Box */
/** @typedef {import("../bytes/index.js").Picture} Picture */

/** The pixels in which two pictures differ, as runs in rows. */
export class Difference {
  /**
   * @param {Picture} first
   * @param {Picture} second
   * @param {import("../board/index.js").PlotWindow} window that both were plotted in
   */
  constructor(first, second, window) {
    if (first.width !== second.width || first.height !== second.height) throw new RangeError("two pictures of other sides");
    this.first = first;
    this.second = second;
    this.window = window;
    this.pitch = window.pitch;
    this.count = 0;
    /** @type {Box | null} */
    this.box = null;
    this.visit((box, _, count) => {
      this.count += count;
      if (!this.box) this.box = { ...box };
      this.box.left = Math.min(this.box.left, box.left);
      this.box.low = Math.min(this.box.low, box.low);
      this.box.right = Math.max(this.box.right, box.right);
      this.box.high = Math.max(this.box.high, box.high);
    });
  }

  /**
   * Calls with the box of each run of pixels that are black in one of the pictures alone, which one that is, and how many
   * there are. Runs are cut at every eighth column.
   * @param {(box: Box, isInFirst: boolean, count: number) => void} act
   */
  visit(act) {
    const { first, second } = this, { stride, height } = first;
    for (let row = 0; row < height; row++) {
      for (let at = row * stride, column = 0; column < stride; at++, column++) {
        const one = /** @type {number} */ (first.bits[at]), other = /** @type {number} */ (second.bits[at]);
        if (one === other) continue;
        this.runs(row, column, one & ~other, true, act);
        this.runs(row, column, other & ~one, false, act);
      }
    }
  }

  /**
   * @param {number} row
   * @param {number} column of a byte
   * @param {number} bits
   * @param {boolean} isInFirst
   * @param {(box: Box, isInFirst: boolean, count: number) => void} act
   */
  runs(row, column, bits, isInFirst, act) {
    for (let bit = 0; bit < 8; bit++) {
      if (!(bits & (128 >> bit))) continue;
      const start = bit;
      while (bit < 8 && bits & (128 >> bit)) bit++;
      act(this.boxOf(row, 8 * column + start, 8 * column + bit), isInFirst, bit - start);
    }
  }

  /** @param {number} row from the top @param {number} start @param {number} end @returns {Box} of the pixels' centres */
  boxOf(row, start, end) {
    const { x, y, pitch, height } = this.window, middle = y + (height - 1 - row) * pitch + Math.floor(pitch / 2);
    return { left: x + start * pitch + Math.floor(pitch / 2), low: middle, right: x + (end - 1) * pitch + Math.floor(pitch / 2), high: middle };
  }
}

// The runs of some nets, row by row, to search among.

import { elementAt } from "./lists.js";

/**
 * Runs of nets: those of row r of layer l are from `offsets[l][r]` to before `offsets[l][r + 1]`, from left to right. Run `at`
 * covers the columns from `starts[at]` to before `ends[at]`, in the row `rows[at]` of the layer `layers[at]`, and belongs to
 * the net `owners[at]`.
 */
export class Table {
  /**
   * @param {import("./nets.js").Nets} nets
   * @param {(net: number) => boolean} isWanted
   * @param {boolean} hasHoles whether the holes stand in it too, as layers after those of copper
   */
  constructor(nets, isWanted, hasHoles) {
    const layers = hasHoles ? nets.layers : nets.copper;
    let size = 0;
    nets.visit(isWanted, () => size++, 0, layers.length - 1);
    this.size = size;
    this.layerCount = layers.length;
    this.starts = new Uint16Array(size);
    this.ends = new Uint16Array(size);
    this.rows = new Int32Array(size);
    this.layers = new Uint16Array(size);
    this.owners = new Int32Array(size);
    this.offsets = layers.map(({ height }) => new Int32Array(height + 1));
    let at = 0;
    nets.visit(isWanted, (layer, row, start, end, net) => {
      this.starts[at] = start;
      this.ends[at] = end;
      this.rows[at] = row;
      this.layers[at] = layer;
      this.owners[at] = net;
      at++;
      elementAt(this.offsets, layer)[row + 1] = at;
    }, 0, layers.length - 1);
    // Rows without a run, and the layers after one, begin where the one before ends.
    let last = 0;
    for (const offsets of this.offsets) {
      offsets[0] = last;
      for (let row = 1; row < offsets.length; row++) last = offsets[row] = Math.max(/** @type {number} */ (offsets[row]), last);
    }
  }

  /**
   * The first run of a row that ends after a column, else where the row's runs end.
   * @param {number} layer
   * @param {number} row
   * @param {number} column
   */
  firstEndingAfter(layer, row, column) {
    const { ends } = this;
    const offsets = elementAt(this.offsets, layer);
    let low = /** @type {number} */ (offsets[row]), high = /** @type {number} */ (offsets[row + 1]);
    while (low < high) {
      const middle = (low + high) >> 1;
      if (/** @type {number} */ (ends[middle]) > column) high = middle;
      else low = middle + 1;
    }
    return low;
  }

  /**
   * The run that covers a pixel; -1 where none does.
   * @param {number} layer
   * @param {number} column
   * @param {number} row
   */
  runAt(layer, column, row) {
    const offsets = elementAt(this.offsets, layer);
    if (row < 0 || row >= offsets.length - 1 || column < 0) return -1;
    const at = this.firstEndingAfter(layer, row, column);
    return at < /** @type {number} */ (offsets[row + 1]) && /** @type {number} */ (this.starts[at]) <= column ? at : -1;
  }
}

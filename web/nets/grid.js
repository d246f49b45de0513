// Places and pixels of a window, and what its pitch can hide.

import { mm } from "./words.js";

/** A window's pixels: column 0 is at the left, row 0 at the top. Places are in nm. */
export class Grid {
  /** @param {import("../board/index.js").PlotWindow} window */
  constructor({ x, y, pitch, width, height }) {
    this.x = x;
    this.y = y;
    this.pitch = pitch;
    this.width = width;
    this.height = height;
  }

  /** @param {number} x */
  columnOf(x) {
    return Math.floor((x - this.x) / this.pitch);
  }

  /** @param {number} y */
  rowOf(y) {
    return this.height - 1 - Math.floor((y - this.y) / this.pitch);
  }

  /**
   * The centre of a column's pixels.
   * @param {number} column
   */
  xOf(column) {
    return this.x + (column + 0.5) * this.pitch;
  }

  /** @param {number} row */
  yOf(row) {
    return this.y + (this.height - 0.5 - row) * this.pitch;
  }

  /**
   * The place of a pixel's centre.
   * @param {number} column
   * @param {number} row
   */
  placeOf(column, row) {
    return { x: this.xOf(column), y: this.yOf(row) };
  }

  /**
   * A measure of pixels in nm.
   * @param {import("./measures.js").Measure} measure
   * @returns {import("./measures.js").Measure}
   */
  measureOf([from, to]) {
    return [this.placeOf(from.x, from.y), this.placeOf(to.x, to.y)];
  }
}

/**
 * What an answer of a pitch holds for. A band as wide as a pixel's diagonal has pixels in it that touch by edges all
 * along; and two pixels that touch have centres one pitch apart, so copper farther apart than that stays apart.
 * @param {number} pitch
 * @returns {{track: number, gap: number, diagonal: number}} the narrowest track and the narrowest gap, in nm
 */
export function limitsOf(pitch) {
  const diagonal = Math.ceil(pitch * Math.SQRT2);
  return { track: diagonal, gap: pitch, diagonal };
}

/**
 * The same in a sentence.
 * @param {number} pitch
 */
export function limitWords(pitch) {
  const { track, gap } = limitsOf(pitch);
  return `at ${pitch} nm a pixel this holds where tracks and holes are at least ${mm(track)} mm wide and gaps wider than `
    + `${mm(gap)} mm`;
}

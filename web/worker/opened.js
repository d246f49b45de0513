// Pictures beside the layers: those that were opened, and what a comparison of two has found. Each has a window of its
// own, and is drawn by the part of it that a view shows, at any zoom with each of its pixels in its place.

import { compared, inkOf, ones } from "./pictures.js";
import { joined } from "../board/index.js";

// How opaque a square with few black pixels is at least, so that a single one is seen.
const LEAST = 96;

/**
 * Of a line `window`; what it lacks is no number.
 * @param {string} line
 */
export function windowOf(line) {
  const [left = NaN, low = NaN, pitch = NaN, width = NaN, height = NaN] = line.trim().split(/\s+/).slice(1).map(Number);
  return { left, low, pitch, width, height };
}

/** @typedef {import("../bytes/index.js").Picture} Picture */

// A picture with its window.
export class Opened {
  /**
   * @param {Picture} picture
   * @param {string} line its window
   * @param {boolean} isLoud whether each pixel with something black in it is wholly black
   */
  constructor(picture, line, isLoud = false) {
    const { left, low, pitch } = windowOf(line);
    this.picture = picture;
    this.line = line;
    this.left = left;
    this.pitch = pitch;
    this.isLoud = isLoud;
    this.top = low + picture.height * pitch;
    /** @type {Uint8Array | null} */
    this.counts = null;
  }

  // How many pixels are black in each square of 8 by 8.
  eighths() {
    if (this.counts) return this.counts;
    const { height, stride, bits } = this.picture, counts = new Uint8Array(stride * Math.ceil(height / 8));
    for (let row = 0, at = 0; row < height; row++) {
      const to = (row >> 3) * stride;
      for (let column = 0; column < stride; column++, at++) counts[to + column] = (counts[to + column] ?? 0) + (ones[bits[at] ?? 0] ?? 0);
    }
    this.counts = counts;
    return counts;
  }

  /**
   * The squares of pixels that stand for one of the view, by their side.
   * @param {number} pitch
   */
  stepFor(pitch) {
    const step = Math.max(1, Math.floor(pitch / this.pitch));
    return step < 8 ? step : step - step % 8;
  }

  /**
   * How many pixels are black in the square of this step whose upper left pixel is named.
   * @param {number} column
   * @param {number} row
   * @param {number} step
   */
  count(column, row, step) {
    const { width, height, stride, bits } = this.picture;
    const right = Math.min(column + step, width), end = Math.min(row + step, height);
    let count = 0;
    if (step < 8) {
      for (let y = row; y < end; y++) {
        for (let x = column; x < right; x++) count += (bits[y * stride + (x >> 3)] ?? 0) >> 7 - (x & 7) & 1;
      }
      return count;
    }
    const counts = this.eighths();
    for (let y = row >> 3; y < end + 7 >> 3; y++) {
      for (let x = column >> 3; x < right + 7 >> 3; x++) count += counts[y * stride + x] ?? 0;
    }
    return count;
  }

  /**
   * What of the picture a view shows, as an image with the place of its upper left corner and its pitch in nm; null where
   * that is nothing.
   * @param {{left: number, top: number, right: number, low: number, pitch: number}} view in nm, with the pitch of its pixels
   * @param {string} colour
   */
  partIn(view, colour) {
    const { width, height } = this.picture, step = this.stepFor(view.pitch), pitch = step * this.pitch;
    /** @type {(start: number, end: number, length: number) => [number, number]} */
    const along = (start, end, length) => [Math.max(0, Math.floor(start / pitch)),
      Math.min(Math.ceil(length / step), Math.ceil(end / pitch))];
    const [left, right] = along(view.left - this.left, view.right - this.left, width);
    const [top, low] = along(this.top - view.top, this.top - view.low, height);
    if (right <= left || low <= top) return null;
    const image = new ImageData(right - left, low - top), pixels = new Uint32Array(image.data.buffer);
    const ink = inkOf(colour);
    let isAny = false;
    for (let row = top, at = 0; row < low; row++) {
      for (let column = left; column < right; column++, at++) {
        const count = this.count(column * step, row * step, step);
        if (count === 0) continue;
        isAny = true;
        const share = this.isLoud ? 255 : Math.max(LEAST, Math.round(255 * count / step ** 2));
        pixels[at] = (share << 24 | ink) >>> 0;
      }
    }
    return isAny ? { image, left: this.left + left * pitch, top: this.top - top * pitch, pitch } : null;
  }

  /**
   * The box of the black pixels in nm, null where there is none.
   * @returns {Board.Box | null}
   */
  box() {
    const { height, stride, bits } = this.picture;
    let left = stride, right = -1, top = -1, end = -1;
    for (let row = 0, at = 0; row < height; row++) {
      for (let column = 0; column < stride; column++, at++) {
        if (bits[at] === 0) continue;
        left = Math.min(left, column);
        right = Math.max(right, column);
        if (top < 0) top = row;
        end = row;
      }
    }
    if (top < 0) return null;
    const { pitch } = this;
    return { left: this.left + 8 * left * pitch, right: this.left + 8 * (right + 1) * pitch,
      low: this.top - (end + 1) * pitch, high: this.top - top * pitch };
  }
}

/**
 * What two pictures of one window have in both, in the first alone and in the second alone: pictures of the same window,
 * how many pixels each has, and the box of where they differ.
 * @param {Picture} first
 * @param {Picture} second
 * @param {string} line
 */
export function difference(first, second, line) {
  const parts = compared(first, second).map(({ picture, count }, at) =>
    ({ opened: new Opened(picture, line, at > 0), count }));
  return { parts, box: joined(parts.slice(1).map(({ opened }) => opened.box())) };
}

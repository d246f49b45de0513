// The picture of a finding: the copper around it, the nets that it is about in colours, and its measure from edge to edge with its
// value; a cross where it has none.

import { mm } from "../../web/nets/index.js";

/** How many pixels a picture has on each side, how many of the nets' own stand around a finding at least, and how large one is drawn. */
export const SIDE = 640;
const AROUND = 80, LARGEST = 3;
export const COLOURS = ["#15181c", "#4a4f57", "#e0513f", "#3f8fe0", "#f2eda1", "#ffffff", "#57d06a"];
const BOARD = 0, COPPER = 1, FIRST = 2, SECOND = 3, HOLE = 4, LETTER = 5;
/** The colour of measures and crosses, by its place. */
export const MARK = 6;
/** Half of the bars at a measure's ends, and how far its value stands from it. */
const BAR = 7, AWAY = 14;
/** Letters of five columns and seven rows: each row is a number whose bits are the columns, the greatest the left one. */
/** @type {Record<string, number[]>} */
const LETTERS = {
  0: [14, 17, 19, 21, 25, 17, 14],
  1: [4, 12, 4, 4, 4, 4, 14],
  2: [14, 17, 1, 2, 4, 8, 31],
  3: [31, 2, 4, 2, 1, 17, 14],
  4: [2, 6, 10, 18, 31, 2, 2],
  5: [31, 16, 30, 1, 1, 17, 14],
  6: [6, 8, 16, 30, 17, 17, 14],
  7: [31, 1, 2, 4, 8, 8, 8],
  8: [14, 17, 17, 14, 17, 17, 14],
  9: [14, 17, 17, 15, 1, 2, 12],
  "-": [0, 0, 0, 31, 0, 0, 0],
  ".": [0, 0, 0, 0, 0, 12, 12],
  m: [0, 0, 26, 21, 21, 21, 17],
};
const WIDE = 5, HIGH = 7, GROWN = 2;

/** @typedef {{layer: number, x: number, y: number}} Place */

/**
 * A finding as it is drawn.
 * @typedef {object} Shown
 * @property {string} what its kind
 * @property {[Place, ...Place[]]} places in nm
 * @property {number[]} nets those that are coloured
 * @property {import("../../web/nets/index.js").Measure | null} measure
 * @property {number | null} value in nm
 */

/** A picture of a part of the board: a pixel of it stands for `step` by `step` of the nets' pictures, or `times` by `times` for one. */
export class Drawn {
  /**
   * @param {{nets: import("../../web/nets/index.js").Nets, grid: import("../../web/nets/index.js").Grid}} board
   * @param {Shown} shown
   */
  constructor({ nets, grid }, { places, nets: coloured, measure, value }) {
    this.grid = grid;
    const spots = [...places, ...measure ?? []].map((place) => this.pixelOf(place)), columns = spots.map(({ x }) => x), rows = spots.map(({ y }) => y);
    const across = Math.max(...columns) - Math.min(...columns), down = Math.max(...rows) - Math.min(...rows), need = Math.max(across, down) + 2 * AROUND;
    this.step = Math.max(1, Math.ceil(need / SIDE));
    this.times = this.step > 1 ? 1 : Math.max(1, Math.min(LARGEST, Math.floor(SIDE / need)));
    const reach = SIDE * this.step / this.times;
    this.left = Math.round((Math.max(...columns) + Math.min(...columns) - reach) / 2);
    this.top = Math.round((Math.max(...rows) + Math.min(...rows) - reach) / 2);
    this.nets = nets;
    this.holes = nets.layers.slice(nets.copper.length);
    this.coloured = coloured;
    this.pixels = new Uint8Array(SIDE * SIDE);
    this.paint(places[0].layer);
    if (measure) this.measure(measure, value);
    else places.forEach((place) => this.cross(this.seen(place)));
  }

  /**
   * A place in pixels of the nets' pictures, whose centres have their columns and rows as coordinates.
   * @param {{x: number, y: number}} place
   */
  pixelOf({ x, y }) {
    const { grid } = this;
    return { x: (x - grid.x) / grid.pitch - 0.5, y: grid.height - 0.5 - (y - grid.y) / grid.pitch };
  }

  /**
   * A place in pixels of this picture.
   * @param {{x: number, y: number}} place
   */
  seen(place) {
    const { x, y } = this.pixelOf(place), size = this.times / this.step;
    return { x: Math.floor((x + 0.5 - this.left) * size), y: Math.floor((y + 0.5 - this.top) * size) };
  }

  // The layer's copper lies over that of the others.
  /** @param {number} layer */
  paint(layer) {
    const others = this.nets.copper.map((_, at) => at).filter((at) => at !== layer), size = this.step / this.times;
    for (let row = 0; row < SIDE; row++) {
      for (let column = 0; column < SIDE; column++) {
        this.pixels[row * SIDE + column] = this.colourOf(this.left + Math.floor(column * size), this.top + Math.floor(row * size), [layer, ...others]);
      }
    }
  }

  /** @param {number} x @param {number} y @param {number[]} layers */
  colourOf(x, y, layers) {
    const { nets, coloured } = this;
    for (const holes of this.holes) if (holes.isBlack(x, y)) return HOLE;
    let colour = BOARD;
    for (const layer of layers) {
      const net = nets.netAt(layer, x, y) ?? -1, place = net < 0 ? -1 : coloured.indexOf(net);
      if (place >= 0) return place === 0 ? FIRST : SECOND;
      if (net >= 0) colour = COPPER;
    }
    return colour;
  }

  /** @param {number} x @param {number} y @param {number} colour */
  dot(x, y, colour = MARK) {
    if (x >= 0 && x < SIDE && y >= 0 && y < SIDE) this.pixels[y * SIDE + x] = colour;
  }

  // A cross with its middle left open.
  /** @param {{x: number, y: number}} at */
  cross({ x, y }) {
    for (let away = 6; away < 24; away++) {
      this.dot(x + away, y);
      this.dot(x - away, y);
      this.dot(x, y + away);
      this.dot(x, y - away);
    }
  }

  /**
   * A line from edge to edge with a bar across each end, and its value above it on the right.
   * @param {import("../../web/nets/index.js").Measure} measure
   * @param {number | null} value
   */
  measure(measure, value) {
    const from = this.seen(measure[0]), to = this.seen(measure[1]), length = Math.hypot(to.x - from.x, to.y - from.y);
    const right = length ? (to.y - from.y) / length * BAR : BAR, down = length ? (from.x - to.x) / length * BAR : 0;
    this.line(from, to);
    for (const { x, y } of [from, to]) this.line({ x: x - right, y: y - down }, { x: x + right, y: y + down });
    if (value !== null) this.write(`${mm(value)} mm`, Math.round((from.x + to.x) / 2) + AWAY, Math.min(from.y, to.y) - 2 * AWAY);
  }

  // Two pixels wide.
  /** @param {{x: number, y: number}} from @param {{x: number, y: number}} to */
  line(from, to) {
    const steps = Math.ceil(Math.max(Math.abs(to.x - from.x), Math.abs(to.y - from.y), 1));
    for (let at = 0; at <= steps; at++) {
      const x = Math.round(from.x + (to.x - from.x) * at / steps), y = Math.round(from.y + (to.y - from.y) * at / steps);
      for (const right of [0, 1]) for (const down of [0, 1]) this.dot(x + right, y + down);
    }
  }

  /**
   * Words on a plate, from their left side and about their middle, within the picture.
   * @param {string} words
   * @param {number} x
   * @param {number} middle
   */
  write(words, x, middle) {
    const wide = words.length * (WIDE + 1) * GROWN, high = HIGH * GROWN, left = Math.min(x, SIDE - wide - 4), top = Math.max(4, middle - (high >> 1));
    for (let row = -3; row < high + 3; row++) for (let column = -3; column < wide + 1; column++) this.dot(left + column, top + row, BOARD);
    [...words].forEach((letter, at) => {
      const rows = LETTERS[letter] ?? [];
      for (let row = 0; row < high; row++) {
        for (let column = 0; column < WIDE * GROWN; column++) {
          if ((rows[Math.floor(row / GROWN)] ?? 0) >> (WIDE - 1 - Math.floor(column / GROWN)) & 1) this.dot(left + at * (WIDE + 1) * GROWN + column, top + row, LETTER);
        }
      }
    });
  }
}

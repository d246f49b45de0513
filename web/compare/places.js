// Places that a person looks at: what lies near to one another of boxes and of pixels that differ is one place. They are
// painted into cells of a grid, and cells that touch, by corners too, belong together: linear, however many there are.

import { Union } from "../nets/index.js";
import { BOARD, PITCH } from "../board/index.js";

/** @typedef {import("../board/index.js").Box} Box */

/** The least side of a cell, in nm, and so many cells along the longer side at most. */
const CELL = 250_000, MOST_CELLS = 1024;
/** A picture of a place has this around it, in nm, or more. */
const MARGIN = 250_000;

/**
 * A part of a layer that a person looks at.
 * @typedef {object} Place
 * @property {Box} box in nm
 * @property {number[]} owners the boxes in it, by the numbers of what they belong to, in order
 * @property {number} onlyFirst pixels that are black in the first picture alone
 * @property {number} onlySecond
 */

/** A grid of cells over a box. */
class Cells {
  /** @param {Box} box @param {number} least of a cell's side */
  constructor(box, least) {
    const longer = Math.max(box.right - box.left, box.high - box.low);
    this.side = Math.max(CELL, least, Math.ceil((longer + 1) / MOST_CELLS));
    this.left = box.left;
    this.low = box.low;
    this.columns = Math.floor((box.right - box.left) / this.side) + 1;
    this.rows = Math.floor((box.high - box.low) / this.side) + 1;
    this.isMarked = new Uint8Array(this.columns * this.rows);
    // For each row, the next column that may be unmarked: so a cell is marked once.
    this.next = Int32Array.from({ length: this.rows * (this.columns + 1) }, (_, at) => at % (this.columns + 1));
  }

  /** @param {number} x */
  column(x) {
    return Math.max(0, Math.min(this.columns - 1, Math.floor((x - this.left) / this.side)));
  }

  /** @param {number} y */
  row(y) {
    return Math.max(0, Math.min(this.rows - 1, Math.floor((y - this.low) / this.side)));
  }

  /** @param {number} row @param {number} column */
  unmarked(row, column) {
    const { next } = this, start = row * (this.columns + 1);
    let at = column;
    for (let to = /** @type {number} */ (next[start + at]); to !== at; to = /** @type {number} */ (next[start + at])) {
      const further = /** @type {number} */ (next[start + to]);
      next[start + at] = further;
      at = further;
    }
    return at;
  }

  /** @param {Box} box */
  mark({ left, low, right, high }) {
    const first = this.column(left), last = this.column(right), top = this.row(high);
    for (let row = this.row(low); row <= top; row++) {
      for (let column = this.unmarked(row, first); column <= last; column = this.unmarked(row, column)) {
        this.isMarked[row * this.columns + column] = 1;
        this.next[row * (this.columns + 1) + column] = column + 1;
      }
    }
  }

  /** The numbers of what hangs together, by cells, and how many there are. */
  joined() {
    const { columns, rows, isMarked } = this, union = new Union(columns * rows);
    for (let at = 0; at < isMarked.length; at++) {
      if (!isMarked[at]) continue;
      const column = at % columns, isTop = at < columns;
      if (column > 0 && isMarked[at - 1]) union.join(at, at - 1);
      for (const side of isTop ? [] : [-1, 0, 1]) {
        if (column + side < 0 || column + side >= columns) continue;
        if (isMarked[at - columns + side]) union.join(at, at - columns + side);
      }
    }
    return union;
  }
}

/** @param {Box | null} one @param {Box} other @returns {Box} */
function grown(one, other) {
  if (!one) return { ...other };
  one.left = Math.min(one.left, other.left);
  one.low = Math.min(one.low, other.low);
  one.right = Math.max(one.right, other.right);
  one.high = Math.max(one.high, other.high);
  return one;
}

/** @type {(one: Place, other: Place) => number} from the top, and from the left */
const inOrder = (one, other) => other.box.high - one.box.high || one.box.left - other.box.left;

/**
 * The places of boxes, and of the pixels that differ in two pictures.
 * @param {{box: Box, owner: number}[]} boxes
 * @param {import("./pixels.js").Difference | null} [difference]
 * @returns {Place[]} from the top down
 */
export function placesOf(boxes, difference = null) {
  /** @type {Box | null} */
  let whole = null;
  for (const { box } of boxes) whole = grown(whole, box);
  if (difference?.box) whole = grown(whole, difference.box);
  if (!whole) return [];
  const cells = new Cells(whole, difference?.pitch ?? 0);
  for (const { box } of boxes) cells.mark(box);
  difference?.visit((box) => cells.mark(box));
  const union = cells.joined();
  /** @type {Map<number, Place>} */
  const places = new Map();
  const placeOf = (/** @type {Box} */ box) => {
    const root = union.find(cells.row(box.low) * cells.columns + cells.column(box.left));
    let place = places.get(root);
    if (!place) places.set(root, place = { box: { ...box }, owners: [], onlyFirst: 0, onlySecond: 0 });
    grown(place.box, box);
    return place;
  };
  for (const { box, owner } of boxes) {
    const { owners } = placeOf(box);
    if (owners[owners.length - 1] !== owner) owners.push(owner);
  }
  difference?.visit((box, isInFirst, count) => {
    const place = placeOf(box);
    if (isInFirst) place.onlyFirst += count;
    else place.onlySecond += count;
  });
  return [...places.values()].sort(inOrder);
}

/**
 * The window of a picture that shows a place in its middle.
 * @param {Box} box in nm
 * @param {number} width of the picture in pixels
 * @param {number} height
 * @returns {import("../board/index.js").PlotWindow}
 */
export function windowOfPlace(box, width, height) {
  const across = box.right - box.left, up = box.high - box.low, margin = Math.max(MARGIN, (across + up) / 8);
  const pitch = Math.min(PITCH, Math.max(1, Math.ceil((across + 2 * margin) / width), Math.ceil((up + 2 * margin) / height)));
  const start = (/** @type {number} */ low, /** @type {number} */ high, /** @type {number} */ count) => {
    const middle = Math.round((low + high) / 2) - Math.round(count * pitch / 2);
    return Math.max(-BOARD, Math.min(middle, BOARD - count * pitch));
  };
  return { x: start(box.left, box.right, width), y: start(box.low, box.high, height), pitch, width, height };
}

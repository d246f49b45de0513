// How wide copper is at a place: the distance between the white pixels on both its sides.
//
// From the place a disc grows away from the nearest white pixel, and from further ones that it meets on the same side, until it
// lies between white pixels on two sides. A disc of copper that two sides hold is as wide as the copper is there.

import { elementAt } from "./lists.js";
import { BAND } from "./runs.js";

/** Whites nearer to a disc's rim than this lie on it. */
const EXACT = 1e-6;
/** A disc is held where two whites on its rim lie at more than 120 degrees, as seen from its centre. */
const HELD = -0.5;
/** By how much the distance of the white centres on both sides of copper is more than its width, on average. */
const EDGES = 1;
/** No disc meets so many whites of one side one after another. */
const MOST_STEPS = 200;

/**
 * A width in pixels, the pixel in its middle, and the disc that is as wide as the copper is there.
 * @typedef {{width: number, column: number, row: number, disc: Disc}} Width
 *
 * A disc without a white centre inside; `across` leads from one of the whites on its rim that hold it to the other.
 * @typedef {{x: number, y: number, radius: number, across: [number, number]}} Disc
 */

/**
 * @param {Disc} disc
 * @returns {Width}
 */
export function widthOf(disc) {
  return { width: 2 * disc.radius - EDGES, column: Math.round(disc.x), row: Math.round(disc.y), disc };
}

/** The widths of a layer's copper. A pixel's centre has its column and its row as coordinates; what is outside is white. */
export class Widths {
  /** @param {import("./runs.js").Runs} runs */
  constructor(runs) {
    this.runs = runs;
    // The white pixel that was found last, and the white that a disc met last.
    this.foundX = 0;
    this.foundY = 0;
    this.metX = 0;
    this.metY = 0;
    // The number that the run looked up last has in its row. Lookups are near each other, so the next one mostly has the same.
    this.order = 0;
    /** Rows whose runs about a place are the same one, [start, end), from the first row to the last. */
    this.alike = { start: 0, end: 0, first: 0, last: -1 };
  }

  /**
   * Finds the nearest white pixel's centre, as `foundX` and `foundY`.
   * @param {number} x
   * @param {number} y
   * @param {number} radius only what is nearer than this is found
   * @returns {number} the distance; Infinity where there is none
   */
  toWhite(x, y, radius) {
    const middle = Math.round(y);
    let square = radius * radius, isFound = false;
    for (let away = 0; ; away++) {
      const above = middle - away - y, below = middle + away - y;
      if (above * above >= square && below * below >= square) break;
      for (let side = 0; side < (away ? 2 : 1); side++) {
        const row = side ? middle - away : middle + away, down = row - y, white = this.whiteNear(row, x);
        const total = (white - x) ** 2 + down * down;
        if (total >= square) continue;
        square = total;
        isFound = true;
        this.foundX = white;
        this.foundY = row;
      }
    }
    return isFound ? Math.sqrt(square) : Infinity;
  }

  /**
   * The run of a band's row that covers a column; -1 where none does.
   * @param {import("./runs.js").Band} band
   * @param {number} row
   * @param {number} column
   */
  runAt(band, row, column) {
    const { offsets, starts, ends } = band, first = /** @type {number} */ (offsets[row]), end = /** @type {number} */ (offsets[row + 1]);
    let at = first + this.order;
    // (the first run that ends after the column, as a search finds it)
    const isFirst = at <= end && (at === end || column < /** @type {number} */ (ends[at]))
      && (at === first || /** @type {number} */ (ends[at - 1]) <= column);
    if (!isFirst) at = band.firstEndingAfter(row, column);
    this.order = at - first;
    return at < end && /** @type {number} */ (starts[at]) <= column ? at : -1;
  }

  /**
   * The white column of a row that is nearest to a place in it, of two the left one.
   * @param {number} row
   * @param {number} x
   */
  whiteNear(row, x) {
    const { runs } = this, low = Math.floor(x), high = Math.ceil(x);
    let left = low, right = high;
    if (row >= 0 && row < runs.height) {
      const band = elementAt(runs.bands, Math.floor(row / BAND)), before = this.runAt(band, row % BAND, low);
      if (before >= 0) left = /** @type {number} */ (band.starts[before]) - 1;
      const after = before >= 0 && high < /** @type {number} */ (band.ends[before]) ? before : this.runAt(band, row % BAND, high);
      if (after >= 0) right = /** @type {number} */ (band.ends[after]);
    }
    return x - left <= right - x ? left : right;
  }

  /**
   * The first white column of a row from a place on, to the right (1) or to the left (-1).
   * @param {number} row
   * @param {number} x
   * @param {1 | -1} side
   */
  whiteTo(row, x, side) {
    const column = side > 0 ? Math.ceil(x) : Math.floor(x), { runs } = this;
    if (row < 0 || row >= runs.height) return column;
    const band = elementAt(runs.bands, Math.floor(row / BAND)), at = this.runAt(band, row % BAND, column);
    if (at < 0) return column;
    return side > 0 ? /** @type {number} */ (band.ends[at]) : /** @type {number} */ (band.starts[at]) - 1;
  }

  /**
   * How far a disc goes from a centre along a direction, with a white always on its rim, before it meets another one, which is
   * `metX` and `metY` then; -1 where its radius passes `reach` first.
   * @param {number} x
   * @param {number} y
   * @param {number} alongX
   * @param {number} alongY
   * @param {number} rimX
   * @param {number} rimY
   * @param {number} reach
   */
  wayOut(x, y, alongX, alongY, rimX, rimY, reach) {
    const radius = Math.hypot(x - rimX, y - rimY), radiusAt = (/** @type {number} */ way) => Math.hypot(x + alongX * way - rimX, y + alongY * way - rimY);
    let way = Math.max(1, radius);
    while (this.toWhite(x + alongX * way, y + alongY * way, radiusAt(way) - EXACT) === Infinity) {
      if (radiusAt(way) >= reach) return -1;
      way *= 2;
    }
    for (;;) {
      const { foundX, foundY } = this, slope = 2 * (alongX * (foundX - rimX) + alongY * (foundY - rimY));
      const next = ((x - foundX) ** 2 + (y - foundY) ** 2 - radius * radius) / slope;
      this.metX = foundX;
      this.metY = foundY;
      if (!(next < way)) return way;
      way = Math.max(0, next);
      if (this.toWhite(x + alongX * way, y + alongY * way, radiusAt(way) - EXACT) === Infinity) return way;
    }
  }

  /**
   * Whether a row has the run of the rows that are alike.
   * @param {number} row
   */
  hasSame(row) {
    const { runs, alike: { start, end } } = this;
    if (row < 0 || row >= runs.height) return false;
    const band = elementAt(runs.bands, Math.floor(row / BAND)), at = this.runAt(band, row % BAND, start);
    return at >= 0 && band.starts[at] === start && band.ends[at] === end;
  }

  /**
   * The disc that `disc` gives where the rows around are alike, as in a track along y: the ends of the run hold it. Such a track
   * has a place to be measured in every few rows, and what is known of the one before tells nearly all.
   * @param {number} column
   * @param {number} row
   * @returns {Disc | null} null where the rows differ
   */
  straightDisc(column, row) {
    const { runs, alike } = this, band = elementAt(runs.bands, Math.floor(row / BAND)), at = this.runAt(band, row % BAND, column);
    if (at < 0) return null;
    const start = /** @type {number} */ (band.starts[at]), end = /** @type {number} */ (band.ends[at]), reach = Math.ceil((end - start + 1) / 2);
    const isKnown = alike.start === start && alike.end === end && row >= alike.first && row <= alike.last;
    if (!isKnown) Object.assign(alike, { start, end, first: row, last: row });
    while (alike.last < row + reach && this.hasSame(alike.last + 1)) alike.last++;
    while (alike.first > row - reach && this.hasSame(alike.first - 1)) alike.first--;
    if (alike.first > row - reach || alike.last < row + reach) return null;
    const left = start - 1, across = column - left <= end - column ? left - end : end - left;
    return { x: (left + end) / 2, y: row, radius: (end - left) / 2, across: [across, 0] };
  }

  /**
   * The disc of copper about a pixel that whites on two sides hold.
   * @param {number} column
   * @param {number} row
   * @param {number} most only a smaller width is of interest
   * @returns {Disc | null} null where it is not smaller
   */
  disc(column, row, most = Infinity) {
    const straight = this.straightDisc(column, row);
    if (straight) return 2 * straight.radius - EDGES < most ? straight : null;
    const reach = Math.min((most + EDGES) / 2, this.runs.width + this.runs.height);
    if (this.toWhite(column, row, reach) === Infinity) return null;
    let x = column, y = row, firstX = this.foundX, firstY = this.foundY, secondX = firstX, secondY = firstY;
    for (let step = 0; step < MOST_STEPS; step++) {
      const alongX = x - (firstX + secondX) / 2, alongY = y - (firstY + secondY) / 2, length = Math.hypot(alongX, alongY);
      if (length < EXACT) break;
      const way = this.wayOut(x, y, alongX / length, alongY / length, firstX, firstY, reach);
      if (way < 0) return null;
      x += alongX / length * way;
      y += alongY / length * way;
      const { metX, metY } = this, square = (x - metX) ** 2 + (y - metY) ** 2;
      const toFirst = (firstX - x) * (metX - x) + (firstY - y) * (metY - y);
      const toSecond = (secondX - x) * (metX - x) + (secondY - y) * (metY - y);
      // Of the whites on the rim the two that are the farthest from each other hold the disc.
      if (toFirst <= toSecond) [secondX, secondY] = [metX, metY];
      else [firstX, firstY] = [metX, metY];
      if (Math.min(toFirst, toSecond) <= HELD * square) break;
    }
    const radius = Math.hypot(x - firstX, y - firstY);
    return 2 * radius - EDGES < most ? { x, y, radius, across: [firstX - secondX, firstY - secondY] } : null;
  }

  /**
   * The width of the copper at a pixel of it.
   * @param {number} column
   * @param {number} row
   * @param {number} [most] only a smaller width is of interest
   * @returns {Width | null} null where it is not smaller, or where the copper ends
   */
  at(column, row, most = Infinity) {
    const disc = this.disc(column, row, most);
    return disc && this.isBetween(disc) ? widthOf(disc) : null;
  }

  /**
   * Whether copper goes on outside of a disc to both sides of the line between the whites that hold it; a pixel that stands out
   * of an edge, and the end of a track, has copper on one side alone.
   * @param {Disc} disc
   */
  isBetween({ x, y, across: [acrossX, acrossY] }) {
    const across = Math.hypot(acrossX, acrossY), part = (across / 2 + 1) / across;
    return [1, -1].every((side) => this.runs.isBlack(Math.round(x - side * acrossY * part), Math.round(y + side * acrossX * part)));
  }
}

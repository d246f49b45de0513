// Which part of the board is seen on a canvas, at which pitch and from which side: it moves, zooms, turns and fits, and tells where a
// point of the board is on the canvas.

import { BOARD } from "../board/index.js";

// Pixels of a picture beyond each edge of the canvas, so that a small move has its pixels.
export const MARGIN = 64;
// Pixels of the station for one of the canvas, along each side: four give edges some shades.
export const SAMPLES = 2;
// The nm of a pixel at the least, and at the greatest, where all that may be a board is 500 pixels wide.
const LEAST_PITCH = 2 * SAMPLES;
const GREATEST_PITCH = 4e6;
// The part of the view that stays free at each side of a board that is shown whole.
const ROOM = 0.05;
// The rulers are about so many pixels of the page wide.
const EDGE = 20;
// The view moves for so long after it was moved.
export const STILL_MS = 150;

export class SeenPart {
  /** @param {HTMLCanvasElement} canvas */
  constructor(canvas) {
    this.canvas = canvas;
    // Device pixels a pixel of the page.
    this.density = 1;
    // The point of the upper left corner in nm, and the nm of a device pixel.
    this.left = 0;
    this.top = 0;
    this.pitch = 50000;
    // The board as it is seen from above, upright, has its upper left corner at `left` and `top`. It is mirrored left to right where it
    // is seen from below, and then turned so many quarters counterclockwise.
    this.isMirrored = false;
    this.quarters = 0;
    // The box that is shown as large as it fits, also when the sides of the view change; null once a person moved the view.
    /** @type {Board.Box | null} */
    this.fitted = null;
    this.moved = 0;
    this.onMirror = () => {};
  }

  // What shows it: asks for what is seen now, also where it moves on, or again for what may look otherwise, or paints alone.
  renew() {}

  goOn() {}

  change() {}

  paint() {}

  /** @param {number} width @param {number} height @param {number} density */
  resize(width, height, density) {
    this.density = density;
    if (this.canvas.width === width && this.canvas.height === height) return;
    this.canvas.width = width;
    this.canvas.height = height;
    if (this.fitted) this.fit(this.fitted);
    else this.renew();
  }

  // How wide a ruler is, in pixels of the canvas.
  get edge() {
    return EDGE * this.density;
  }

  // Whether left and right of the board are up and down on the canvas.
  get isTurned() {
    return this.quarters % 2 === 1;
  }

  // The sides of the view in pixels, as it is seen from above and upright.
  get width() {
    return this.isTurned ? this.canvas.height : this.canvas.width;
  }

  get height() {
    return this.isTurned ? this.canvas.width : this.canvas.height;
  }

  /** @param {number} x @param {number} y */
  pointAt(x, y) {
    const at = this.uprightOf(x, y);
    return { x: this.left + at.x * this.pitch, y: this.top - at.y * this.pitch };
  }

  /** @param {number} x @param {number} y @returns {Board.Point} */
  placeOf(x, y) {
    const column = (x - this.left) / this.pitch, row = (this.top - y) / this.pitch;
    const across = this.isMirrored ? this.width - column : column;
    switch (this.quarters) {
      case 1: return { x: row, y: this.width - across };
      case 2: return { x: this.width - across, y: this.height - row };
      case 3: return { x: this.height - row, y: across };
      default: return { x: across, y: row };
    }
  }

  // Where a place of the canvas is in the picture from above and upright.
  /** @param {number} x @param {number} y */
  uprightOf(x, y) {
    /** @type {Board.Pair[]} */
    const places = [[x, y], [this.width - y, x], [this.width - x, this.height - y], [y, this.height - x]];
    const [across, row] = places[this.quarters] ?? [x, y];
    return { x: this.isMirrored ? this.width - across : across, y: row };
  }

  // A way over the canvas, to the right and down, as one over the board, to the right and up.
  /** @param {number} right @param {number} down */
  wayOf(right, down) {
    /** @type {Board.Pair[]} */
    const ways = [[right, down], [-down, right], [-right, -down], [down, -right]];
    const [across, low] = ways[this.quarters] ?? [right, down];
    return { x: this.isMirrored ? -across : across, y: -low };
  }

  // What lies in the middle stays there.
  /** @param {boolean} isMirrored */
  mirror(isMirrored) {
    const isOver = isMirrored !== this.isMirrored;
    this.isMirrored = isMirrored;
    this.onMirror();
    if (isOver) this.change();
    else this.paint();
  }

  // Turns what is seen so many quarters counterclockwise from upright; what lies in the middle stays there.
  /** @param {number} quarters */
  turnTo(quarters) {
    const { fitted } = this, { x, y } = this.pointAt(this.canvas.width / 2, this.canvas.height / 2);
    this.quarters = (quarters % 4 + 4) % 4;
    this.onMirror();
    if (fitted) this.fit(fitted);
    else this.centre(x, y);
  }

  // Shows a box as large as it fits, with some room around it; a whole board next to the rulers, until a person moves it.
  /** @param {Board.Box} box @param {number} room */
  fit(box, room = ROOM) {
    const isWhole = room === ROOM, edge = isWhole ? this.edge : 0, { width, height } = this.canvas;
    const [wide, tall] = [Math.max(1000, box.right - box.left), Math.max(1000, box.high - box.low)];
    const [across, down] = this.isTurned ? [tall, wide] : [wide, tall];
    const pitch = Math.max(across / Math.max(1, width - edge), down / Math.max(1, height - edge)) / (1 - 2 * room);
    this.hold({ x: (box.left + box.right) / 2, y: (box.low + box.high) / 2 }, (width + edge) / 2, (height + edge) / 2, pitch, Math.ceil);
    this.fitted = isWhole ? box : null;
  }

  // Whether a part of one of these boxes is in the view, and not under its rulers or at its edge.
  /** @param {Board.Box[]} boxes */
  sees(boxes) {
    const { width, height } = this.canvas, edge = this.edge * this.pitch;
    const left = this.left + edge, right = this.left + width * this.pitch - edge;
    const top = this.top - edge, below = this.top - height * this.pitch + edge;
    return boxes.some((box) => box.left <= right && box.right >= left && box.low <= top && box.high >= below);
  }

  // The view that the page had when it was left.
  /** @param {Machine.Seen} seen */
  show({ left, top, pitch, isMirrored = false, quarters = 0, fitted = null }) {
    Object.assign(this, { left, top, pitch, quarters, fitted });
    this.mirror(isMirrored);
    if (fitted) this.fit(fitted);
    else this.renew();
  }

  // The same of it as it is now.
  /** @returns {Machine.Seen} */
  get seen() {
    const { left, top, pitch, isMirrored, quarters, fitted } = this;
    return { left, top, pitch, isMirrored, quarters, fitted };
  }

  /** @param {number} x @param {number} y */
  centre(x, y) {
    this.left = Math.round(x - this.width / 2 * this.pitch);
    this.top = Math.round(y + this.height / 2 * this.pitch);
    this.move();
  }

  // Pitches of the station are whole, so those of the canvas are multiples of SAMPLES.
  /** @param {number} pitch @param {(value: number) => number} round */
  allowed(pitch, round) {
    return Math.min(GREATEST_PITCH, Math.max(LEAST_PITCH, round(pitch / SAMPLES) * SAMPLES));
  }

  /** @param {number} factor @param {number} x @param {number} y */
  zoom(factor, x, y) {
    this.hold(this.pointAt(x, y), x, y, this.pitch / factor, factor > 1 ? Math.floor : Math.ceil);
  }

  // Shows a point of the board at a place of the canvas, at a pitch.
  /** @param {Board.Point} point @param {number} x @param {number} y @param {number} pitch @param {(value: number) => number} round */
  hold(point, x, y, pitch, round = Math.round) {
    this.pitch = this.allowed(pitch, round);
    const at = this.uprightOf(x, y);
    this.left = Math.round(point.x - at.x * this.pitch);
    this.top = Math.round(point.y + at.y * this.pitch);
    this.move();
  }

  /** @param {number} dx @param {number} dy */
  pan(dx, dy) {
    const way = this.wayOf(dx, dy);
    this.left = Math.round(this.left - way.x * this.pitch);
    this.top = Math.round(this.top - way.y * this.pitch);
    this.move();
  }

  // Another part of the board is seen.
  move() {
    const { isMoving } = this;
    this.fitted = null;
    this.moved = performance.now();
    if (isMoving) this.goOn();
    else this.renew();
  }

  get isMoving() {
    return performance.now() - this.moved < STILL_MS;
  }

  // The window of the station for this view, as a line of a script; what lies off the board is left out.
  window() {
    /** @param {number} start @param {number} pixels @returns {[first: number, pixels: number]} */
    const along = (start, pixels) => {
      const first = Math.max(start - MARGIN * this.pitch, -BOARD + this.pitch);
      const last = Math.min(start + (pixels + MARGIN) * this.pitch, BOARD - this.pitch);
      const sides = Math.floor((last - first) / this.pitch / 16) * 16;
      return [Math.round(first), Math.max(16, Math.min(sides, 16000))];
    };
    const [left, width] = along(this.left, this.width + 16);
    const [low, height] = along(this.top - this.height * this.pitch, this.height + 16);
    return `window ${left} ${low} ${this.pitch / SAMPLES} ${width * SAMPLES} ${height * SAMPLES}`;
  }
}

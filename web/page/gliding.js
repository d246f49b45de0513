// The picture while the view moves on: what was painted last goes with the view by a transform, which costs the page much less than
// painting. It goes as a bitmap: a canvas that is painted on would be copied with each frame. Behind it lies all that is composed,
// and over it the rulers, which stay at their edges. Once the view rests, all is painted where it is.

import { MARGIN, STILL_MS } from "./seen_part.js";
import { element } from "./dom.js";

// What was painted goes with the view as long as it is so near, as a part of the view's sides, and at most so many times as large
// or as small as it was. Farther away its marks would lack in too much of the view, or be too coarse.
const NEAR = 1 / 8, TIMES = 6;
// Where no two of so many frames of a movement came sooner one after the other, the browser composes by its processor: then it is
// painted for a minute, which is quicker there.
const SLOW_FRAMES = 16, SLOW_MS = 45, SLOW_FOR_MS = 60000;

// The view's sides and how it is turned: what was painted under another one cannot go with it.
/** @param {Page.View} view */
const formOf = ({ canvas: { width, height }, density, quarters, isMirrored }) => [width, height, density, quarters, isMirrored].join();

// A step along an axis, as 1, 0 or -1: a place of the view is computed from numbers of nm that are not exact.
/** @param {Board.Point} from @param {Board.Point} to @param {number} scale @returns {Board.Pair} */
const wayOf = (from, to, scale) => [Math.round((to.x - from.x) / scale), Math.round((to.y - from.y) / scale)];

// A bitmap that is moved and scaled on the page.
class Moved {
  /** @param {HTMLCanvasElement} board the canvas that it lies behind */
  constructor(board) {
    this.canvas = element("canvas", { className: "glides", hidden: true });
    /** @type {ImageBitmapRenderingContext | null} */
    this.context = null;
    board.before(this.canvas);
  }

  // What `paint` paints, of so many pixels.
  /**
   * @param {number} width
   * @param {number} height
   * @param {number} density
   * @param {(context: OffscreenCanvasRenderingContext2D) => void} paint
   */
  put(width, height, density, paint) {
    const { canvas } = this, sheet = new OffscreenCanvas(width, height), context = sheet.getContext("2d", { alpha: false });
    this.context ??= canvas.getContext("bitmaprenderer", { alpha: false });
    if (!context || !this.context) return;
    paint(context);
    if (canvas.width !== width || canvas.height !== height) Object.assign(canvas, { width, height });
    Object.assign(canvas.style, { width: `${width / density}px`, height: `${height / density}px` });
    this.context.transferFromImageBitmap(sheet.transferToImageBitmap());
  }

  // Each way is that of a step to the right or down in the bitmap, in pixels of the view.
  /** @param {Board.Pair} across @param {Board.Pair} down @param {Board.Point} at @param {number} density @param {boolean} isLarger */
  place(across, down, { x, y }, density, isLarger) {
    const { canvas } = this;
    Object.assign(canvas.style, { transform: `matrix(${[...across, ...down].join()}, ${x / density}, ${y / density})`,
      imageRendering: isLarger ? "pixelated" : "" });
    canvas.hidden = false;
  }

  hide(isForgotten = false) {
    this.canvas.hidden = true;
    if (isForgotten) this.context?.transferFromImageBitmap(null);
  }
}

export class Gliding {
  /** @param {Page.View} view */
  constructor(view) {
    this.view = view;
    // Whether what was painted lies elsewhere than where it was painted.
    this.isAway = false;
    // What was painted: all that was composed then, the point of the canvas's upper left corner, the pitch and the form.
    /** @type {Page.Composing | null | undefined} */
    this.shown = undefined;
    this.corner = { x: 0, y: 0 };
    this.pitch = 0;
    this.form = "";
    // What lies behind it, and what that shows; and what was painted, without its rulers.
    this.beyond = new Moved(view.canvas);
    /** @type {Page.Composing | null} */
    this.behind = null;
    this.painted = new Moved(view.canvas);
    this.timer = 0;
    // Of this movement: how many frames went, when the last one did, and how soon at best one came after the other.
    this.frames = 0;
    this.last = 0;
    this.soonest = Infinity;
    this.slowUntil = 0;
    this.beside = { x: 0, y: 0 };
    // Paints what stays at its edge of the view.
    this.onFollow = () => {};
    this.onRest = () => {};
  }

  // All is painted where it is.
  rest() {
    const { view } = this;
    this.shown = view.composed.shown;
    this.corner = view.pointAt(0, 0);
    this.pitch = view.pitch;
    this.form = formOf(view);
    if (!view.isMoving) Object.assign(this, { frames: 0, soonest: Infinity });
    if (!this.isAway) return;
    this.isAway = false;
    clearTimeout(this.timer);
    view.canvas.style.visibility = "";
    this.painted.hide(true);
    // (where the view moves on, the same is behind it again)
    this.beyond.hide(!view.isMoving);
    if (!view.isMoving) this.behind = null;
    this.onRest();
  }

  // Where what was painted lies now, in pixels of the view; whole ones at the same pitch, so that it is as sharp as before.
  get place() {
    const { view, corner, pitch } = this, scale = pitch / view.pitch, { x, y } = view.placeOf(corner.x, corner.y);
    return scale === 1 ? { x: Math.round(x), y: Math.round(y), scale } : { x, y, scale };
  }

  get hasMoved() {
    const { x, y, scale } = this.place;
    return x !== 0 || y !== 0 || scale !== 1;
  }

  // Whether something is lit over the dimmed board: what lies behind is not, and would look as if it were lit.
  get isDimmed() {
    const { nets, lit, tables } = this.view.state;
    return Boolean(nets.lit || lit || tables.lit?.items);
  }

  // Whether what was painted still shows enough of the view, and the view moves.
  get isNear() {
    const { view, form } = this, { x, y, scale } = this.place, { width, height } = view.canvas;
    if (performance.now() < this.slowUntil || form !== formOf(view) || scale > TIMES || scale < 1 / TIMES || this.isAway && !view.isMoving) return false;
    /** @param {number} start @param {number} side */
    const isAlong = (start, side) => {
      const room = this.isDimmed ? MARGIN : side * NEAR, free = Math.max(0, 1 - scale) * side;
      return start <= free + room && start + side * scale >= side - free - room;
    };
    return isAlong(x, width) && isAlong(y, height);
  }

  // Another frame of a movement.
  count() {
    const now = performance.now();
    if (this.frames > 0) this.soonest = Math.min(this.soonest, now - this.last);
    this.frames++;
    this.last = now;
    if (this.frames <= SLOW_FRAMES) return;
    if (this.soonest > SLOW_MS) this.slowUntil = now + SLOW_FOR_MS;
    this.frames = 1;
    this.soonest = Infinity;
  }

  // What was painted goes to where it is in the view now.
  follow() {
    if (!this.isAway && !this.hasMoved) return;
    this.count();
    const { view, place: { x, y, scale } } = this, { density, edge } = view, from = Math.ceil(edge);
    if (!this.isAway) this.leave(from);
    this.painted.place([scale, 0], [0, scale], this.onScreen({ x: x + from * scale, y: y + from * scale }), density, scale > 1);
    this.placeBeyond();
    clearTimeout(this.timer);
    this.timer = setTimeout(() => view.wake(), Math.max(0, STILL_MS - (performance.now() - view.moved)));
    this.onFollow();
  }

  // The browser puts a canvas that it does not move on whole pixels of the screen, and one that it moves where it is.
  /** @param {Board.Point} place */
  onScreen({ x, y }) {
    return { x: x + this.beside.x, y: y + this.beside.y };
  }

  // (the rulers that are painted do not go with the board)
  /** @param {number} from */
  leave(from) {
    const { view: { canvas, density } } = this, box = canvas.getBoundingClientRect();
    this.isAway = true;
    this.beside = { x: Math.round(box.left * density) - box.left * density, y: Math.round(box.top * density) - box.top * density };
    this.painted.put(Math.max(1, canvas.width - from), Math.max(1, canvas.height - from), density,
      (context) => context.drawImage(canvas, -from, -from));
    canvas.style.visibility = "hidden";
  }

  placeBeyond() {
    const { view, beyond } = this, { composed } = view, { shown } = composed, { density } = view;
    if (!shown || this.isDimmed) return beyond.hide();
    if (this.behind !== shown) beyond.put(shown.width, shown.height, density, (context) => composed.draw(context, shown));
    this.behind = shown;
    const { left, top, pitch } = shown, scale = pitch / view.pitch, at = view.placeOf(left, top);
    const [across, down] = [view.placeOf(left + pitch, top), view.placeOf(left, top - pitch)].map((to) => wayOf(at, to, scale));
    if (!across || !down) return undefined;
    const place = scale === 1 ? { x: Math.round(at.x), y: Math.round(at.y) } : at;
    return beyond.place([across[0] * scale, across[1] * scale], [down[0] * scale, down[1] * scale], this.onScreen(place), density,
      scale > 1);
  }
}

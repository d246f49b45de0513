// The view: the layers' pictures over each other on the part of the board that is seen. Each picture is of a window of the
// station, which the worker draws; while a new one is not there yet, the one before is shown where it belongs, and what no
// picture covers is marked as not drawn.

import { Composed } from "./composed.js";
import { Gliding } from "./gliding.js";
import { MARGIN, SAMPLES, SeenPart } from "./seen_part.js";
import { drawnLayers, isMadeShown, isOpening, pileSeen } from "../machine/index.js";
import { placeSeen, seen } from "../board/index.js";
import { sideWanted } from "./board_view.js";
import { painterOf, withRows } from "./painting.js";

// The page asks for another window at most so often while the one before is drawn: often enough that a view that is moved fills up,
// and seldom enough that something is drawn before it is asked anew.
const PATIENCE_MS = 200;
// Of each frame so many ms go to the composed picture, while the view moves and else.
const MOVING_MS = 2, RESTING_MS = 30;
// While layers are drawn, their composed picture is made anew after so many times the time that it takes.
const SELDOM = 3;

// What of the layers is seen. An edit changes how many items they have: what it touched is drawn, and nothing else looks otherwise.
/** @param {readonly Machine.Layer[]} layers */
export const looksOf = (layers) => JSON.stringify(layers.map(({ name, kind, label, colour, opacity, isShown, shows, by }) =>
  [name, kind, label, colour, opacity, isShown, shows, by?.value]));

/** @param {HTMLCanvasElement} canvas */
function contextOf(canvas) {
  const context = canvas.getContext("2d", { alpha: false });
  if (!context) throw new Error("the browser has no canvas");
  return context;
}

// Where a picture of a window lies: its upper left corner, and the nm of its pixels.
/** @param {string} window @param {number} samples */
function anchorOf(window, samples) {
  const [, left = 0, low = 0, pitch = 0, , height = 0] = window.split(" ").map(Number);
  return { left, top: low + height * pitch, pitch: pitch * samples };
}

// The pixels of a picture of a window, so many of the station's for one along each side.
/** @param {string} window @param {number} samples */
function sidesOf(window, samples) {
  const [, , , , width = 0, height = 0] = window.split(" ").map(Number);
  return { width: Math.ceil(width / samples), height: Math.ceil(height / samples) };
}

export class View extends SeenPart {
  // It shows what the machine's state says; `ask` hands a view over to the worker.
  /** @param {HTMLCanvasElement} canvas @param {Page.Runner} machine @param {(view: Page.Wanted) => void} ask */
  constructor(canvas, machine, ask) {
    super(canvas);
    this.machine = machine;
    this.ask = ask;
    this.context = contextOf(canvas);
    this.number = 0;
    /** @type {Map<string, Page.Layered>} */
    this.pictures = new Map();
    // The pictures composed, and which version of them there is; those that it may still use are closed when it is made.
    this.composed = new Composed();
    this.version = 1;
    /** @type {(ImageBitmap | null | undefined)[]} */
    this.replaced = [];
    // Where they changed since they were composed; null where anything may look otherwise.
    /** @type {Page.Touched[] | null} */
    this.touched = null;
    this.anchor = { left: 0, top: 0, pitch: 0 };
    this.isWanted = false;
    this.isWhole = true;
    this.asked = 0;
    this.frames = 0;
    // Whether a frame is to come, and whether all is painted in it; else what is painted goes with the view.
    this.isAwake = false;
    this.isDue = false;
    this.later = 0;
    this.gliding = new Gliding(this);
    /** @type {OffscreenCanvasRenderingContext2D | null} */
    this.probe = null;
    this.afterDraw = () => {};
    this.onDrawn = () => {};
    /** @type {(made: Page.MadeSide) => void} */
    this.onMade = () => {};
  }

  get state() {
    return this.machine.state;
  }

  // Whether there is nothing to draw, or not yet.
  get isEmpty() {
    const { layers, opened, station } = this.state;
    return layers.length === 0 && opened.length === 0 || !station.isOpen || isOpening(this.state);
  }

  // What is painted next lies where the picture from above and upright has it.
  /** @param {Board.Context} context */
  fromAbove(context = this.context) {
    placeSeen(context, this, this);
  }

  // What lies on the board, the nearest layer last.
  get pile() {
    return pileSeen(drawnLayers(this.state), this.isMirrored);
  }

  // What lies on the board changed, or how it looks.
  change() {
    this.version++;
    this.touched = null;
    this.renew();
  }

  // Asks the worker for what is seen now, and paints what is there.
  renew() {
    this.isWanted = true;
    this.paint();
  }

  // The same where the view moves on: what is painted goes with it.
  goOn() {
    this.isWanted = true;
    this.wake();
  }

  request() {
    if (!this.isWanted || this.isEmpty) return;
    const now = performance.now();
    if (!this.isWhole && now - this.asked < PATIENCE_MS) return;
    this.isWanted = false;
    this.isWhole = false;
    this.asked = now;
    this.number++;
    // The topmost layers first, since they are seen most.
    const isLight = document.documentElement.dataset.look === "light";
    const made = isMadeShown(this.state) ? sideWanted(this.state, this.isMirrored) : null;
    const layers = made ? made.layers.map(({ name }) => ({ name, colour: "made" })) : this.pile.slice().reverse()
      .map(({ name, colour, isOpened = false }) => ({ name, colour: seen(colour, isLight), isOpened, isThere: this.pictures.has(name) }));
    this.ask({ number: this.number, window: this.window(), samples: SAMPLES, layers, made });
  }

  // A picture came from the worker.
  /** @param {Page.Came} message */
  put({ name, bitmap, window = "", samples = SAMPLES, place, side, lacks, rows }) {
    if (rows) return this.putRows(name, bitmap, rows, sidesOf(window, samples));
    this.forget(name);
    if (side) this.onMade({ side, lacks: lacks ?? [] });
    if (place) {
      this.pictures.set(name, { bitmap, ...place });
      return this.wake();
    }
    this.anchor = anchorOf(window, samples);
    this.pictures.set(name, { bitmap, ...this.anchor });
    return this.wake();
  }

  // Rows of a layer's picture came, which an edit touched.
  /** @param {string} name @param {ImageBitmap | null} bitmap @param {Page.Rows} rows @param {{ width: number, height: number }} sides */
  putRows(name, bitmap, rows, sides) {
    const before = this.pictures.get(name);
    if (!before) return;
    const { top, pitch } = before, { from, to } = rows;
    this.version++;
    this.replaced.push(before.bitmap, bitmap);
    this.pictures.set(name, { ...before, bitmap: withRows(before.bitmap, bitmap, rows, sides) });
    this.touched?.push({ top: top - from * pitch, low: top - to * pitch });
    this.wake();
  }

  // Something changed, which the worker draws by itself where it has a view.
  undrawn() {
    if (this.number > 0) this.isWhole = false;
  }

  /** @param {{ number: number }} message */
  drawn({ number }) {
    if (number !== this.number) return;
    this.isWhole = true;
    this.onDrawn();
    this.wake();
  }

  /** @param {string} name */
  forget(name) {
    this.version++;
    this.touched = null;
    this.replaced.push(this.pictures.get(name)?.bitmap);
    this.pictures.delete(name);
  }

  // Paints with the next frame.
  paint() {
    this.isDue = true;
    this.wake();
  }

  // Looks with the next frame what is to be done: whether anything is to be painted, asked for or composed.
  wake() {
    if (this.isAwake) return;
    this.isAwake = true;
    requestAnimationFrame(() => {
      this.isAwake = false;
      this.request();
      this.showNow();
      this.frames++;
      if (this.isWanted && !this.isEmpty || this.isStale) this.wake();
    });
  }

  // What is painted stays as it is while nothing else is to be seen; where the view moves, it goes with it as long as that shows enough.
  showNow() {
    const { gliding, composed } = this;
    if (!this.isDue) this.compose(this.colours());
    if (this.isDue || gliding.shown !== composed.shown || !gliding.isNear) this.paintNow();
    else gliding.follow();
  }

  paintNow() {
    const { context } = this, colours = this.colours();
    this.isDue = false;
    this.compose(colours);
    this.gliding.rest();
    this.paintInto(context, colours);
    this.afterDraw();
  }

  // Whether something of the picture is still to be painted, where it stays.
  get isPainting() {
    return this.isAwake || this.gliding.isAway;
  }

  // The composed picture, and nothing over it.
  /** @param {Board.Context} context @param {Page.Colours} colours */
  paintInto(context, colours = this.colours()) {
    const { composed } = this;
    this.fromAbove(context);
    context.globalAlpha = 1;
    context.fillStyle = this.pile.length || isMadeShown(this.state) ? colours.undrawn : colours.board;
    for (const box of composed.beside(this)) context.fillRect(...box);
    composed.draw(context, this);
    context.setTransform(1, 0, 0, 1, 0, 0);
  }

  colours() {
    const style = getComputedStyle(this.canvas);
    return { board: style.getPropertyValue("--board"), undrawn: style.getPropertyValue("--undrawn") };
  }

  // Whether what is composed is of another part of the board, or of another pitch: the view may come back to where its pictures
  // are still those that it has, so that none comes.
  get isElsewhere() {
    const { composed } = this;
    return composed.shown !== null && (composed.shown.pitch !== this.pitch || composed.beside(this).length > 0);
  }

  // Whether what is painted is not yet composed of all pictures that came; those that came while one was made wait for the next.
  get isStale() {
    return this.composed.making !== null || this.isWhole && (this.composed.version !== this.version || this.isElsewhere);
  }

  // Whether all that is in view is drawn, composed and painted where it stays.
  get isSettled() {
    return this.isWhole && !this.isWanted && !this.isStale && !this.gliding.isAway;
  }

  // Composes the pictures anew where they changed; while the view moves, a little with each frame.
  /** @param {Page.Colours} colours */
  compose(colours) {
    const { composed, version } = this;
    if ((composed.version !== version || this.isWhole && this.isElsewhere) && !composed.making) {
      const left = SELDOM * composed.took - (performance.now() - composed.ended);
      if (this.isWhole || left <= 0) this.begin(colours);
      else this.wakeIn(left);
    }
    if (composed.making) composed.step(this.isMoving ? MOVING_MS : RESTING_MS);
    if (!composed.making) for (const bitmap of this.replaced.splice(0)) bitmap?.close();
  }

  /** @param {Page.Colours} colours */
  begin(colours) {
    this.composed.begin(this.version, this.frame(), this.pictures.size, this.painter(colours), this.touched);
    this.touched = [];
  }

  /** @param {number} ms */
  wakeIn(ms) {
    clearTimeout(this.later);
    this.later = setTimeout(() => this.wake(), ms);
  }

  // What is to be composed: the view with its margins, whose pixels are those of the last picture.
  /** @returns {Page.Frame} */
  frame() {
    const { anchor, pitch } = this, from = anchor.pitch === pitch ? anchor : { left: 0, top: 0 };
    /** @param {number} start @param {number} to */
    const aligned = (start, to) => start + Math.floor((to - start) / pitch) * pitch;
    return { left: aligned(from.left, this.left - MARGIN * pitch), top: aligned(from.top, this.top + (MARGIN + 1) * pitch), pitch,
      width: this.width + 2 * MARGIN, height: this.height + 2 * MARGIN };
  }

  // Paints what lies on the board now into a frame of it.
  /** @param {Page.Colours} colours */
  painter(colours) {
    return painterOf(this.state, this.pile, this.pictures, colours);
  }

  // The names of what is black at a point of the canvas, the topmost first.
  /** @param {number} x @param {number} y */
  blackAt(x, y) {
    const at = this.pointAt(x, y);
    const probe = this.probe ??= new OffscreenCanvas(1, 1).getContext("2d", { willReadFrequently: true });
    if (isMadeShown(this.state)) return [];
    return this.pile.filter(({ name }) => {
      const picture = this.pictures.get(name);
      if (!picture?.bitmap || !probe) return false;
      const { bitmap, left, top, pitch } = picture;
      probe.clearRect(0, 0, 1, 1);
      probe.drawImage(bitmap, -Math.floor((at.x - left) / pitch), -Math.floor((top - at.y) / pitch));
      return (probe.getImageData(0, 0, 1, 1).data[3] ?? 0) > 127;
    }).map(({ name, label }) => label ?? name).reverse();
  }
}

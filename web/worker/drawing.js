// The view: a window of the station, whose shown layers are drawn one after another, a heavy one in parts, between what
// the page asks meanwhile.

import { inkOf, paint, pictureOf, putTile } from "./pictures.js";
import { BoardSide } from "./board_side.js";
import { rowsOf, touchedRows } from "./touched_rows.js";
import { windowOf } from "./opened.js";

// A layer that took longer, or has more items before it was drawn once, is drawn in parts of so many tiles, so that what the page
// asks meanwhile is answered between two of them.
const HEAVY_MS = 80;
const HEAVY_ITEMS = 200000;
const PART = 24;
// What is not drawn yet in such a layer's picture.
const UNDRAWN = "#80808066";
// Between pictures of a layer that is drawn in parts, and between words of how far the drawing is, where it takes longer than
// the second: five of them a second are seen as growing, and each costs a bitmap. What is drawn within a second needs no words.
const PART_MS = 200, LONG_MS = 1000;

const text = new TextEncoder();
const words = new TextDecoder();

/** @typedef {import("../bytes/index.js").Picture & { dirty?: number[] }} Picture a part of one has the numbers of the tiles that it lacks */
/** @typedef {import("../station/index.js").Station} Station */
/** @typedef {import("./opened.js").Opened} Opened */
/** @typedef {Worker.Wanted} Wanted */
/** @typedef {Worker.WantedLayer} Layer */

// How many tiles a view's window has.
/** @param {Wanted} view */
function tilesIn({ window }) {
  const { width, height } = windowOf(window);
  return Math.ceil(width / 64) * Math.ceil(height / 64);
}

export class Drawing {
  // `post` hands a message to the page, with what goes over to it.
  /**
   * @param {Station} station
   * @param {Map<string, { kind: string, items: number }>} layers
   * @param {Worker.PostFromStation} post
   * @param {WebAssembly.Module} compiled
   */
  constructor(station, layers, post, compiled) {
    this.station = station;
    this.side = new BoardSide(this, compiled);
    // The layers by their names in the order of their loads, each with its kind and how many items it had then.
    this.layers = layers;
    this.post = post;
    // Pictures beside the layers, by the names that the page gave them.
    /** @type {Map<string, Opened>} */
    this.opened = new Map();
    /** @type {Wanted | null} */
    this.view = null;
    // The window that the station has, and that of the script, as lines.
    /** @type {string | null} */
    this.current = null;
    /** @type {string | null} */
    this.scripted = null;
    // Of the window as it is: which layers the page has, by their names, and how they looked.
    /** @type {Map<string, string>} */
    this.sent = new Map();
    // The pictures that it has, and how they looked: an edit touches some rows of one.
    /** @type {Map<string, { looks: string, whole: Picture }>} */
    this.known = new Map();
    // How long each layer took, and what is still to be drawn.
    /** @type {Map<string, number>} */
    this.took = new Map();
    /** @type {Layer[]} */
    this.waiting = [];
    /** @type {{ layer: Layer, start: number, sent: number, spent: number, tiles: number } | null} */
    this.part = null;
    // Whether the page has still to be told that all is drawn; since when it is drawn, and when the page was told how far.
    this.isOwed = false;
    this.since = 0;
    this.told = 0;
  }

  /** @param {string} line */
  apply(line) {
    return this.station.apply(text.encode(line));
  }

  /** @param {string | null} line */
  use(line) {
    if (line === this.current || line === null) return;
    this.current = this.apply(line) === 0 ? line : this.current;
  }

  // Before a line of the script that looks at its window.
  useScripted() {
    this.use(this.scripted);
  }

  // A line `window` of the script was accepted.
  /** @param {string} line */
  windowed(line) {
    this.current = this.scripted = line;
  }

  /** @param {Wanted} view */
  show(view) {
    this.view = view;
    this.current = view.window === this.current ? this.current : "";
    // (the page may have let go of pictures meanwhile)
    for (const { name, isThere } of view.layers) if (!isThere) this.known.delete(name);
    this.refresh();
  }

  // Something changed: every shown layer is looked at again. What is clean costs nothing.
  refresh() {
    this.part = null;
    this.waiting = this.view ? this.view.layers.slice() : [];
    this.isOwed = this.view !== null;
    this.since = this.told = performance.now();
  }

  // Draws no more of the view, until something changes.
  halt() {
    this.part = null;
    this.waiting = [];
  }

  // Tells the page how far the drawing is, now and then where it takes long.
  /** @param {Wanted} view */
  tell(view) {
    const now = performance.now();
    if (now - this.since < LONG_MS || now - this.told < PART_MS || !this.waiting.length) return;
    this.told = now;
    const count = view.layers.length, part = this.part ? Math.min(0.99, this.part.tiles / tilesIn(view)) : 0;
    this.post({ kind: "drawing", number: view.number, drawn: count - this.waiting.length, count, part });
  }

  // Draws the next layer, or a part of it; answers whether more is to be done.
  step() {
    const { view, waiting: [first] } = this;
    if (!view) return false;
    if (!first) return this.end(view);
    const isNew = this.current !== view.window;
    this.use(view.window);
    if (this.current !== view.window) return this.stop("The view cannot be set.");
    if (isNew) this.forget();
    const layer = this.part?.layer ?? first;
    if (layer.isOpened) this.drawOpened(view, layer);
    else if (this.part || this.isHeavy(layer)) this.drawPart(view, layer);
    else this.drawWhole(view, layer);
    this.tell(view);
    return this.waiting.length > 0 || this.end(view);
  }

  // All is drawn, which the page is told once.
  /** @param {Wanted} view */
  end(view) {
    if (this.isOwed && view.made) this.side.send(view, view.made);
    if (this.isOwed) this.post({ kind: "drawn", number: view.number });
    this.isOwed = false;
    return false;
  }

  /** @param {string} why */
  stop(why) {
    this.waiting = [];
    this.isOwed = false;
    this.post({ kind: "undrawn", why });
    return false;
  }

  // The page has no picture any more that some rows could be put into.
  forget() {
    this.sent.clear();
    this.known.clear();
  }

  /** @param {Layer} layer */
  isHeavy({ name }) {
    const took = this.took.get(name);
    return took === undefined ? (this.layers.get(name)?.items ?? 0) > HEAVY_ITEMS : took > HEAVY_MS;
  }

  /** @param {Wanted} view @param {Layer} layer */
  drawWhole(view, layer) {
    const start = performance.now();
    const code = this.apply(`plot ${layer.name} view`);
    this.waiting.shift();
    if (code) return this.post({ kind: "undrawn", name: layer.name, code });
    const drawn = Number(words.decode(this.station.reply).split(" ")[1]);
    if (drawn > tilesIn(view) / 2) this.took.set(layer.name, performance.now() - start);
    this.send(view, layer, drawn, () => pictureOf(this.station.file), false);
  }

  // A heavy layer: tiles of it, and of those that were loaded before it, since the station draws in that order. When
  // none is left, the layer is plotted whole.
  /** @param {Wanted} view @param {Layer} layer */
  drawPart(view, layer) {
    const number = [...this.layers.keys()].indexOf(layer.name);
    const part = this.part ??= { layer, start: performance.now(), sent: performance.now(), spent: 0, tiles: 0 };
    const start = performance.now();
    const code = this.station.redraw(PART);
    part.spent += performance.now() - start;
    const drawn = code ? 0 : Number(words.decode(this.station.reply).split(" ")[1]);
    part.tiles += drawn;
    // (some may be tiles of layers that were loaded before it, whose own plots find nothing to draw then)
    if (drawn > 0) for (const name of [...this.layers.keys()].slice(0, number)) this.sent.delete(name);
    const isClean = drawn < PART || this.station.tile(number, tilesIn(view) - 1) !== null;
    if (!isClean) {
      if (performance.now() - part.sent < PART_MS) return;
      part.sent = performance.now();
      this.send(view, layer, -1, () => this.tilesOf(view, number), true);
      return;
    }
    this.took.set(layer.name, Math.max(part.spent, this.took.get(layer.name) ?? 0));
    this.part = null;
    this.sent.delete(layer.name);
    this.drawRest(view, layer);
  }

  /** @param {Wanted} view @param {Layer} layer */
  drawRest(view, layer) {
    const code = this.apply(`plot ${layer.name} view`);
    this.waiting.shift();
    if (code) return this.post({ kind: "undrawn", name: layer.name, code });
    this.send(view, layer, 1, () => pictureOf(this.station.file), false);
  }

  // The picture of the tiles that are clean, and the numbers of the others.
  /** @param {Wanted} view @param {number} number of the layer @returns {Picture} */
  tilesOf(view, number) {
    const { width, height } = windowOf(view.window), stride = width + 7 >> 3, picture = { width, height, stride, bits: new Uint8Array(stride * height) };
    /** @type {number[]} */
    const dirty = [];
    for (let tile = 0, count = tilesIn(view); tile < count; tile++) {
      const rows = this.station.tile(number, tile);
      if (rows) putTile(picture, rows, tile);
      else dirty.push(tile);
    }
    return { ...picture, dirty };
  }

  // Hands the layer's picture over, but where the page has it already.
  /** @param {Wanted} view @param {Layer} layer @param {number} drawn @param {() => Picture} picture @param {boolean} isPart */
  send(view, layer, drawn, picture, isPart) {
    const { number, window, samples, made } = view, { name, colour } = layer, looks = `${colour} ${samples}`;
    if (drawn === 0 && this.sent.get(name) === looks) return;
    if (made) {
      if (!isPart) this.side.take(name, window, picture());
      this.sent.set(name, looks);
      return;
    }
    const whole = picture(), before = this.known.get(name);
    const rows = before?.looks === looks && !isPart ? touchedRows(before.whole, whole, samples) : undefined;
    if (isPart) {
      this.known.delete(name);
    } else {
      this.sent.set(name, looks);
      this.known.set(name, { looks, whole });
    }
    if (rows === null) return;
    // All of it, or the rows that were touched.
    const bitmap = this.bitmapOf(view, rows ? rowsOf(whole, rows) : whole, colour);
    const part = rows && { rows: { from: rows.from / samples, to: Math.ceil(rows.to / samples) } };
    this.post({ kind: "picture", number, window, samples, name, bitmap, isPart, ...part }, bitmap ? [bitmap] : []);
  }

  /** @param {Wanted} view @param {Picture} picture @param {string} colour */
  bitmapOf({ samples }, picture, colour) {
    const width = Math.ceil(picture.width / samples), height = Math.ceil(picture.height / samples);
    const image = new ImageData(width, height);
    const isAny = paint(picture, samples, inkOf(colour), new Uint32Array(image.data.buffer), width);
    if (!isAny && !picture.dirty?.length) return null;
    const canvas = new OffscreenCanvas(width, height), context = canvas.getContext("2d");
    context.putImageData(image, 0, 0);
    context.fillStyle = UNDRAWN;
    const columns = Math.ceil(picture.width / 64), side = 64 / samples;
    for (const tile of picture.dirty ?? []) {
      context.fillRect(tile % columns * side, Math.floor(tile / columns) * side, side, side);
    }
    return canvas.transferToImageBitmap();
  }

  // A picture beside the layers; null where it goes.
  /** @param {string} name @param {Opened | null} opened */
  keep(name, opened) {
    if (opened) this.opened.set(name, opened);
    else this.opened.delete(name);
    this.sent.delete(name);
  }

  /** @param {Wanted} view @param {Layer} layer */
  drawOpened({ number, window, samples }, { name, colour }) {
    this.waiting.shift();
    if (this.sent.get(name) === colour) return;
    const { left, low, pitch, width, height } = windowOf(window);
    const seen = { left, low, right: left + width * pitch, top: low + height * pitch, pitch: pitch * samples };
    const part = this.opened.get(name)?.partIn(seen, colour) ?? null;
    this.sent.set(name, colour);
    /** @type {ImageBitmap | null} */
    let bitmap = null;
    if (part) {
      const canvas = new OffscreenCanvas(part.image.width, part.image.height);
      canvas.getContext("2d").putImageData(part.image, 0, 0);
      bitmap = canvas.transferToImageBitmap();
    }
    // (where it has no part in the view, it lies where that does)
    const place = part ?? seen;
    this.post({ kind: "picture", number, name, bitmap, place: { left: place.left, top: place.top, pitch: place.pitch } }, bitmap ? [bitmap] : []);
  }

  // The raw PBM files of layers in a window as they are now; null where the station refuses one.
  /** @param {string[]} names @param {string} line @returns {Uint8Array[] | null} */
  filesIn(names, line) {
    this.use(line);
    const files = names.flatMap((name) => this.current === line && this.apply(`plot ${name} view`) === 0 ? this.station.file : []);
    return files.length === names.length ? files : null;
  }

  // The picture of a layer in a window as it is now, or null.
  /** @param {string} name @param {string} line */
  pictureIn(name, line) {
    this.use(line);
    return this.current === line && this.apply(`plot ${name} view`) === 0 ? pictureOf(this.station.file) : null;
  }
}

// A station that follows a page's: it takes the same lines, and keeps the pictures of copper and of holes at one pitch, so
// that what each edit joins and cuts is found from the tiles that the station drew again.

import { DRILL, GERBER, HEAD, boxFrom, isInWindow, joined, windowAtPitch, windowLine } from "../board/index.js";
import { NotJoined, readAttributes } from "../attributes/index.js";
import {
  Desk, alignmentOf, alignmentWords, isEnough, numbersOf, padsOf, placeWords, pointsOfAttributes, pointsOfNetlist, saidItems,
  stackOf, toolsWithoutPlating,
} from "../nets/index.js";
import { headOf, linesOf } from "../station/index.js";
import { latin1 } from "../bytes/index.js";
import { loadedLayer } from "./loaded.js";
import { pictureOf } from "./pictures.js";

/** @typedef {import("../board/index.js").Box} Box */
/** @typedef {import("../nets/index.js").SaidItems} SaidItems */

/**
 * What is known of a layer since it was loaded.
 * @typedef {object} Followed
 * @property {import("../board/index.js").Layer} layer
 * @property {Board.Point[]} pads the centres of its pads
 * @property {SaidItems} items
 * @property {import("../attributes/index.js").Reading | null} reading what its file says of its items, where it can be joined to them
 */

/**
 * Where there is copper: its nets, the layers that make them, with their names, and the window of their pictures.
 * @typedef {object} Found
 * @property {Desk} desk
 * @property {ReturnType<typeof stackOf>} stack
 * @property {string[]} shown copper from the top, then holes
 * @property {import("../board/index.js").PlotWindow} window
 */

const text = new TextEncoder();
// The most pixels of a side: a board that is larger has a coarser pitch.
export const MOST_SIDE = 8_000;
const TILE = 64;
// Lines that change nothing of the document; those of a page have its own window.
const LOOKS = new Set(["plot", "write", "redraw", "list", "window"]);
// Lines of any layer; every other one names its own.
const OF_ALL = new Set(["undo", "redo", "begin", "end", "abort"]);

export class Follower {
  /**
   * @param {import("../station/index.js").Station} station a new one, as deep as the page's
   * @param {number} pitch in nm
   */
  constructor(station, pitch) {
    this.station = station;
    this.pitch = pitch;
    /** @type {Map<string, Followed>} by the names of the script */
    this.layers = new Map();
    /** @type {import("../nets/index.js").Netlist | null} */
    this.netlist = null;
    // By how much the netlist is moved, and why it is compared with nothing, if it is not.
    this.shift = { x: 0, y: 0 };
    /** @type {string | null} */
    this.misfit = null;
    /** @type {Found | null} */
    this.found = null;
    // The layers that lines named since the nets were found last; null where it may be any.
    /** @type {Set<string> | null} */
    this.touched = new Set();
  }

  /** @param {string} line @param {Uint8Array | null} file */
  apply(line, file = null) {
    return this.station.apply(text.encode(line), file);
  }

  /**
   * Takes a line that the page's station accepted.
   * @param {Worker.FollowedLine} given
   */
  take(given) {
    const { line } = given, [word = "", layer = "", kind] = line.trim().split(/[ \t]+/);
    if (LOOKS.has(word)) return;
    const code = this.apply(line, "bytes" in given ? given.bytes : null);
    if (code) throw new Error(`${line}: refused ${code}, which the page's station accepted`);
    if (OF_ALL.has(word)) this.touched = null;
    else this.touched?.add(layer);
    if (word === "load" && "bytes" in given) this.loaded(layer, kind === DRILL ? DRILL : GERBER, given.name, given.bytes);
  }

  /** @param {string} name @param {Board.LayerKind} kind @param {string} fileName @param {Uint8Array} bytes */
  loaded(name, kind, fileName, bytes) {
    const layer = loadedLayer({ name: fileName, bytes: bytes.subarray(0, HEAD) }, name, kind), items = saidItems(this.station, name);
    this.layers.set(name, { layer, pads: padsOf(items), items, reading: kind === DRILL ? null : readingOf(bytes, items.items.length) });
    this.found = null;
  }

  /**
   * A layer that was loaded.
   * @param {string} name
   */
  layer(name) {
    const found = this.layers.get(name);
    if (!found) throw new Error(`${name} is not followed`);
    return found;
  }

  /**
   * The canonical text of a layer as it is now.
   * @param {string} name
   */
  textOf(name) {
    const code = this.apply(`write ${name} view`);
    if (code) throw new Error(`${name} cannot be written: refused ${code}`);
    return this.station.file;
  }

  // The centres of holes without plating: of such layers, and of the tools that a drill file calls so.
  unplatedCentres() {
    return [...this.layers.values()].flatMap(({ layer, pads, items: { items, blocks } }) => {
      if (layer.layerFunction.name === "nonplated") return pads;
      /** @type {ReadonlySet<number | null>} */
      const tools = layer.kind === DRILL ? toolsWithoutPlating(latin1(layer.file.bytes)) : new Set();
      return tools.size ? padsOf({ items: items.filter(({ words }) => tools.has(headOf(words).number)), blocks }) : [];
    });
  }

  /**
   * The netlist to compare with, or null.
   * @param {import("../nets/index.js").Netlist | null} netlist
   */
  compareWith(netlist) {
    this.netlist = netlist;
    if (this.found) this.takePoints(this.found);
  }

  /** @param {Found} found */
  takePoints({ desk, stack }) {
    const { netlist } = this;
    this.shift = { x: 0, y: 0 };
    this.misfit = null;
    if (!netlist) {
      const said = stack.copper.map(({ layer: { name } }) => ({ label: name, ...this.layer(name) }));
      desk.compareWith(pointsOfAttributes(said, this.unplatedCentres()));
      return;
    }
    const alignment = alignmentOf(netlist, [...this.layers.values()].flatMap(({ pads }) => pads));
    this.shift = { x: alignment.x, y: alignment.y };
    if (!isEnough(alignment)) this.misfit = `only ${alignmentWords(alignment, netlist, placeWords(alignment))}: nothing is compared`;
    desk.compareWith(this.misfit === null ? pointsOfNetlist(netlist, numbersOf(stack), alignment) : []);
  }

  /**
   * Finds the nets as the document is now.
   * @returns {ReturnType<Desk["settleInWords"]>} what was joined and cut, as `settleInWords` of a desk gives it; null where the nets are found for the
   *   first time, or where there is no copper
   */
  settle() {
    const { touched, found } = this;
    this.touched = new Set();
    if (!found || !this.isInside(found, touched)) return this.begin();
    const { desk, shown, window } = found;
    let isOther = false;
    shown.forEach((name, at) => {
      if (touched && !touched.has(name)) return;
      const bands = this.dirtyBands(name, window);
      if (!bands.length) return;
      isOther = true;
      this.draw(name, desk, at);
      for (const [first, last] of bands) desk.changed(at, first * TILE, Math.min(desk.grid.height, (last + 1) * TILE) - 1);
    });
    const { nets } = desk;
    if (!isOther) return nets && { joins: [], cuts: [], appeared: [], vanished: [], before: nets.count, after: nets.count };
    return desk.settleInWords();
  }

  begin() {
    this.found = null;
    const stack = stackOf([...this.layers.values()].map(({ layer }) => layer)), { copper, holes } = stack;
    const boxes = [...copper, ...holes].flatMap(({ layer }) => this.boxOf(layer.name) ?? []), around = joined(boxes);
    if (!copper.length || !around) return null;
    const window = this.windowOf(boxes, around), shown = [...copper, ...holes].map(({ layer }) => layer.name);
    if (this.apply(windowLine(window))) throw new Error("the window of the nets cannot be set");
    const desk = new Desk(window, [...copper.map(({ layer }) => ({ name: layer.name, passes: null })), ...holes.map(({ layer, from, to }) => {
      /** @type {[number, number]} */
      const passes = [from, to];
      return { name: layer.name, passes };
    })]);
    const found = { desk, stack, shown, window };
    this.found = found;
    shown.forEach((name, at) => {
      this.draw(name, desk, at);
      desk.changed(at, 0, desk.grid.height - 1);
    });
    desk.settle();
    this.takePoints(found);
    return null;
  }

  /** @param {Box[]} boxes @param {Box} around all of them */
  windowOf(boxes, around) {
    const sides = boxes.flatMap(({ left, low, right, high }) => [right - left, high - low]);
    const least = Math.ceil(Math.max(...sides) / MOST_SIDE);
    return windowAtPitch(around, Math.max(this.pitch, least));
  }

  /** @param {string} name */
  boxOf(name) {
    return boxFrom(linesOf(this.station, `box ${name}`)[0]);
  }

  // Whether the copper and the holes that lines touched lie in the window still.
  /** @param {Found} found @param {Set<string> | null} touched */
  isInside({ shown, window }, touched) {
    return shown.every((name) => {
      const box = !touched || touched.has(name) ? this.boxOf(name) : null;
      return !box || isInWindow(window, box);
    });
  }

  // The bands of tiles that the station has to draw again, as the first and the last of each stretch.
  /** @param {string} name @param {Found["window"]} window */
  dirtyBands(name, { width, height }) {
    const across = Math.ceil(width / TILE), down = Math.ceil(height / TILE);
    /** @type {[first: number, last: number][]} */
    const bands = [];
    const number = this.numbers().indexOf(name);
    for (let band = 0; band < down; band++) {
      let isDirty = false;
      for (let tile = 0; tile < across && !isDirty; tile++) isDirty = !this.station.isClean(number, band * across + tile);
      if (!isDirty) continue;
      const last = bands[bands.length - 1];
      if (last && last[1] === band - 1) last[1] = band;
      else bands.push([band, band]);
    }
    return bands;
  }

  // The layers' names in the order of the station.
  numbers() {
    return linesOf(this.station, "layers").map((line) => line.split(" ")[0]);
  }

  /** @param {string} name @param {Desk} desk @param {number} at its place there */
  draw(name, desk, at) {
    const code = this.apply(`plot ${name} view`);
    if (code) throw new Error(`${name} cannot be drawn: refused ${code}`);
    desk.pictures[at]?.bits.set(pictureOf(this.station.file).bits);
  }
}

// What a file says of its items, where it can be joined to them.
/** @param {Uint8Array} bytes @param {number} count */
function readingOf(bytes, count) {
  try {
    const reading = readAttributes(bytes);
    return reading.count === count ? reading : null;
  } catch (fault) {
    if (fault instanceof NotJoined) return null;
    throw fault;
  }
}

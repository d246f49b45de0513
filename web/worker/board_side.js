// A side of the board as it will be made, in the view's window: composed from the station's pictures of the layers there
// (web/materials, docs/page.md "Materials").

import {
  NO_OUTLINE, OPEN_OUTLINE, Outline, bitsOf, boardOf, boxBits, colourSquares, coloursOf, cropped, isMade, nibbleRows, outlineBits, sideFromAbove,
  withinOutline,
} from "../materials/index.js";
import { boxFrom, isInWindow, joined, windowLine } from "../board/index.js";
import { Plating } from "./plating.js";
import { itemsOf } from "../station/index.js";
import { lineOf } from "./answers.js";
import { windowOf } from "./opened.js";

// An outline that is known by its picture alone is drawn whole, by so many pixels along a side at most, and so many in all: 8 MB.
const SIDE = 32768, PIXELS = 1 << 26;
// A layer of more items is no outline that a person drew, and is known by its picture.
const MOST_ITEMS = 100000;

const OUTLINE = "outline";
const NO_LAYERS = "no layer of copper, mask, silkscreen, holes or outline is open";

/** The name of the picture for the page: no layer has a blank in its name. */
const NAME = "the board";

/** @typedef {import("../bytes/index.js").Picture} Picture */
/** @typedef {Worker.MadeLayer} Layer */
/** @typedef {ReturnType<typeof bitsOf>} Bits */
/** @typedef {{ shows: string, said: string | null, bits: Bits }} Plotted */
/** @typedef {{ board: Bits, told: string | null }} Made the pixels of a board, and what is told of them */

export class BoardSide {
  // The drawing, whose station has the layers.
  /** @param {import("./drawing.js").Drawing} drawing @param {WebAssembly.Module} compiled */
  constructor(drawing, compiled) {
    this.drawing = drawing;
    this.plating = new Plating(compiled);
    // The window and the pictures in it, by the layers' names; the outlines by the words of their items, and what lies within one that
    // is known by its picture alone.
    this.window = "";
    /** @type {Map<string, Picture>} */
    this.pictures = new Map();
    /** @type {Map<string, { words: string, outline: Outline | null }>} */
    this.outlines = new Map();
    /** @type {{ key: string, found: Made | null } | null} */
    this.within = null;
  }

  // The picture of a layer in a window of the view.
  /** @param {string} name @param {string} window @param {Picture} picture */
  take(name, window, picture) {
    if (window !== this.window) this.pictures.clear();
    this.window = window;
    this.pictures.set(name, picture);
  }

  // Hands the page the side of a view all of whose layers are drawn.
  /** @param {Worker.Wanted} view @param {Worker.MadeSide} made */
  send({ number, window, samples }, made) {
    const { canvas, lacks } = this.composed(made), bitmap = canvas && canvas.transferToImageBitmap();
    this.drawing.post({ kind: "picture", number, window, samples, name: NAME, bitmap, isPart: false, lacks, side: made.side }, bitmap ? [bitmap] : []);
  }

  // The side in another window than the view's, as a PNG file with a pixel for four of the window, and what lacks.
  /** @param {Worker.MadeSide} made @param {string} line @returns {Promise<{ png: Uint8Array | null, lacks: string[] }>} */
  async fileIn(made, line) {
    const { window, pictures } = this, found = new Map();
    for (const { name } of made.layers) {
      const picture = this.drawing.pictureIn(name, line);
      if (picture) found.set(name, picture);
    }
    Object.assign(this, { window: line, pictures: found });
    const { canvas, lacks } = this.composed(made);
    Object.assign(this, { window, pictures });
    const file = canvas && await canvas.convertToBlob({ type: "image/png" });
    return { png: file && new Uint8Array(await file.arrayBuffer()), lacks };
  }

  // A canvas of the side, as it lies from above, and what lacks.
  /** @param {Worker.MadeSide} made @returns {{ canvas: OffscreenCanvas | null, lacks: string[] }} */
  composed(made) {
    const layers = made.layers.filter(({ name }) => this.pictures.has(name));
    if (!layers.length) return { canvas: null, lacks: [NO_LAYERS] };
    const plotted = layers.flatMap((layer) => this.plottedOf(layer)), { pitch, width, height } = windowOf(this.window);
    const { board, told } = this.boardIn(layers, plotted), { materials, lacks } = sideFromAbove(plotted, made.side, board, pitch);
    const image = new ImageData(width / 2, height / 2);
    colourSquares(nibbleRows(materials), width, height, coloursOf(made.mask, made.finish), new Uint32Array(image.data.buffer));
    const canvas = new OffscreenCanvas(image.width, image.height);
    canvas.getContext("2d").putImageData(image, 0, 0);
    return { canvas, lacks: [...told ? [told] : [], ...lacks] };
  }

  // The pictures of a layer: of holes those with plating and those without.
  /** @param {Layer} layer @returns {Plotted[]} */
  plottedOf({ name, shows, said, bare }) {
    const picture = this.pictures.get(name), plain = () => (picture ? [{ shows, said, bits: bitsOf(picture) }] : []);
    if (!bare.length) return plain();
    const parts = this.plating.parts(this.drawing.station, name, bare, this.window);
    return parts ? [{ shows, said, bits: bitsOf(parts.plated) }, { shows: "nonplated", said: null, bits: bitsOf(parts.bare) }] : plain();
  }

  // The pixels of the board, and what is told of them.
  /** @param {Layer[]} layers @param {Plotted[]} plotted @returns {Made} */
  boardIn(layers, plotted) {
    const outlines = layers.filter(({ shows }) => shows === OUTLINE);
    for (const { name } of outlines) {
      const found = this.withinOf(name);
      if (found) return found;
    }
    // The box of what has no closed outline: by the pixels where all of it is in the window, else by what the station says.
    const { left, low, pitch, width, height } = windowOf(this.window), window = { x: left, y: low, pitch, width, height };
    const around = outlines.map(({ name }) => this.boxOf(name)).find((box) => box);
    const box = around ?? joined(layers.filter(({ shows }) => isMade(shows)).map(({ name }) => this.boxOf(name)));
    if (!box || isInWindow(window, box)) return boardOf(plotted);
    const column = (/** @type {number} */ x) => Math.floor((x - left) / pitch), row = (/** @type {number} */ y) => height - 1 - Math.floor((y - low) / pitch);
    return { told: around ? OPEN_OUTLINE : NO_OUTLINE,
      board: boxBits(width, height, { left: column(box.left), top: row(box.high), right: column(box.right) + 1, low: row(box.low) + 1 }) };
  }

  /** @param {string} name */
  boxOf(name) {
    return boxFrom(lineOf(this.drawing.station, `box ${name}`));
  }

  // What lies within the outline of a layer; null where it encloses nothing.
  /** @param {string} name @returns {Made | null} */
  withinOf(name) {
    const { drawing, window } = this, { left, low, pitch, width, height } = windowOf(window);
    const items = (drawing.layers.get(name)?.items ?? 0) > MOST_ITEMS ? null : [...itemsOf(drawing.station, name)], words = items?.join("\n") ?? "";
    let known = this.outlines.get(name);
    if (known?.words !== words) this.outlines.set(name, known = { words, outline: items && Outline.of(items) });
    if (known.outline) {
      const board = known.outline.within({ x: left, y: low, pitch, width, height });
      return board && { board, told: null };
    }
    const key = `${name} ${window} ${words}`;
    if (this.within?.key !== key || !items) this.within = { key, found: this.withinPicture(name, items ?? [""]) };
    return this.within.found;
  }

  // The same of an outline with open lines or others than lines, by its whole picture: with the view's pixels, or where these would be
  // too many with coarser ones.
  /** @param {string} name @param {string[]} items @returns {Made | null} */
  withinPicture(name, items) {
    const { drawing, window: line } = this, { left, low, pitch, width, height } = windowOf(line), box = this.boxOf(name);
    if (!box) return null;
    const [west, south] = [Math.min(left, box.left - pitch), Math.min(low, box.low - pitch)];
    const [east, north] = [Math.max(left + width * pitch, box.right + pitch), Math.max(low + height * pitch, box.high + pitch)];
    const long = Math.max(east - west, north - south) / pitch, all = (east - west) / pitch * ((north - south) / pitch);
    const times = Math.max(1, Math.ceil(long / (SIDE - 2)), Math.ceil(Math.sqrt(all / PIXELS)));
    // Its pixels are those of the view, or begin where one of the view does.
    const before = (/** @type {number} */ from, /** @type {number} */ to) => Math.ceil((from - to) / (pitch * times)), coarse = pitch * times;
    const [columns, rows] = [before(left, west), before(low, south)], whole = { x: left - columns * coarse, y: low - rows * coarse, pitch: coarse,
      width: Math.ceil((east - left) / coarse) + columns, height: Math.ceil((north - low) / coarse) + rows };
    const picture = drawing.pictureIn(name, windowLine(whole));
    drawing.use(line);
    const board = picture && withinOutline(outlineBits(items, picture, whole));
    if (!board) return null;
    const part = { column: columns * times, row: (whole.height - rows) * times - height, width, height };
    return { board: cropped(board, part, times), told: times === 1 ? null : `the outline has open lines: its edge has pixels of ${coarse.toLocaleString("en")} nm` };
  }
}

// The picture of a place where two boards differ: both in their colours, one over the other with an edge that is dragged, or one
// after the other.

import { contextOf, element } from "./dom.js";

/** @typedef {import("../worker/index.js").PlaceShown} PlaceShown */
/** @typedef {"both" | "slider" | "blink"} Way */

// The colours of a picture: nothing, both, what A alone has, what B alone has, frames.
/** @typedef {[nothing: string, both: string, a: string, b: string, frame: string]} Colours */
/** @type {{ dark: Colours, light: Colours }} */
export const COLOURS = { dark: ["#15181c", "#9aa0a8", "#ff7a66", "#5aa9ff", "#f2eda1"], light: ["#fbfbf9", "#99a0aa", "#bf2a10", "#1a5fc0", "#6f5200"] };
const FRAME = 4;
/** What of the pixels each sheet shows: that of A, of B, and of both. */
const SHEETS = { a: [0, 1, 2, 0], b: [0, 1, 0, 3], both: [0, 1, 2, 3] };
/** @typedef {{ a: OffscreenCanvas, b: OffscreenCanvas, both: OffscreenCanvas }} Sheets */
/** How long each is shown where one comes after the other, in ms. */
const BLINK_MS = 700;

// A colour as a pixel of an image.
/** @param {string} colour */
function inkOf(colour) {
  const value = parseInt(colour.slice(1), 16);
  return (255 << 24 | (value & 255) << 16 | value & 0xff00 | value >> 16) >>> 0;
}

/**
 * Sheets of a place: what A has, what B has, and both, with frames around what changed.
 * @param {PlaceShown} place
 * @param {Colours} colours
 * @returns {Sheets}
 */
export function sheetsOf({ pixels, window, frames }, colours) {
  const { width, height, x, y, pitch } = window, inks = colours.map(inkOf);
  /** @param {number[]} shown */
  const sheet = (shown) => {
    const canvas = new OffscreenCanvas(width, height), context = canvas.getContext("2d");
    const image = context.createImageData(width, height), words = new Uint32Array(image.data.buffer), own = shown.map((at) => inks[at] ?? 0);
    pixels.forEach((pixel, at) => { words[at] = own[pixel] ?? 0; });
    context.putImageData(image, 0, 0);
    context.strokeStyle = colours[FRAME];
    for (const { left, low, right, high } of frames) {
      const from = { x: (left - x) / pitch, y: height - (high - y) / pitch }, to = { x: (right - x) / pitch, y: height - (low - y) / pitch };
      context.strokeRect(Math.floor(from.x) - 2.5, Math.floor(from.y) - 2.5, Math.ceil(to.x - from.x) + 5, Math.ceil(to.y - from.y) + 5);
    }
    return canvas;
  };
  return { a: sheet(SHEETS.a), b: sheet(SHEETS.b), both: sheet(SHEETS.both) };
}

export class ComparedPicture {
  constructor() {
    this.canvas = element("canvas", { className: "two-boards-canvas", role: "img", "aria-label": "the place in both boards" });
    this.slider = element("input", { type: "range", min: 0, max: 1000, value: 500, "aria-label": "the edge between A and B" });
    /** @type {Way} */
    this.way = "both";
    /** @type {Sheets | null} */
    this.sheets = null;
    this.timer = 0;
    this.isSecond = false;
    this.slider.oninput = () => this.paint();
    this.canvas.onpointerdown = (event) => this.drag(event);
    this.canvas.onpointermove = (event) => event.buttons && this.drag(event);
  }

  // How many pixels of the screen it has.
  sides() {
    const { clientWidth, clientHeight } = this.canvas, density = window.devicePixelRatio || 1;
    return { width: Math.max(64, Math.round(clientWidth * density)), height: Math.max(64, Math.round(clientHeight * density)) };
  }

  // The edge is where it is dragged to.
  /** @param {PointerEvent} event */
  drag(event) {
    if (this.way !== "slider") return;
    const { left, width } = this.canvas.getBoundingClientRect();
    this.canvas.setPointerCapture(event.pointerId);
    this.slider.value = String(Math.round(1000 * (event.clientX - left) / width));
    this.paint();
  }

  /** @param {PlaceShown} place */
  show(place) {
    this.sheets = sheetsOf(place, COLOURS[document.documentElement.dataset.look === "light" ? "light" : "dark"]);
    this.canvas.width = place.window.width;
    this.canvas.height = place.window.height;
    this.canvas.setAttribute("aria-label", `${place.line}: ${place.changes.join("; ")}`);
    this.paint();
  }

  clear() {
    this.sheets = null;
    this.paint();
  }

  /** @param {Way} way */
  turnTo(way) {
    this.way = way;
    this.slider.disabled = way !== "slider";
    this.stop();
    if (way === "blink") this.timer = setInterval(() => this.turnOver(), BLINK_MS);
    this.paint();
  }

  turnOver() {
    this.isSecond = !this.isSecond;
    this.paint();
  }

  stop() {
    clearInterval(this.timer);
    this.isSecond = false;
  }

  paint() {
    const { canvas, sheets, way } = this, context = contextOf(canvas), { width, height } = canvas;
    canvas.dataset.way = way;
    context.clearRect(0, 0, width, height);
    if (!sheets) return;
    if (way === "both") context.drawImage(sheets.both, 0, 0);
    else if (way === "blink") this.sheet(context, sheets, this.isSecond ? "b" : "a", 0, width);
    else {
      const edge = Math.round(width * Number(this.slider.value) / 1000);
      this.sheet(context, sheets, "a", 0, edge);
      this.sheet(context, sheets, "b", edge, width);
      context.fillStyle = getComputedStyle(canvas).color;
      context.fillRect(edge - 1, 0, 2, height);
    }
  }

  // A part of the sheet of one board, with that board's letter.
  /** @param {CanvasRenderingContext2D} context @param {Sheets} sheets @param {"a" | "b"} which @param {number} from @param {number} to */
  sheet(context, sheets, which, from, to) {
    if (to <= from) return;
    const { height } = this.canvas, size = Math.round(16 * (window.devicePixelRatio || 1));
    context.save();
    context.beginPath();
    context.rect(from, 0, to - from, height);
    context.clip();
    context.drawImage(sheets[which], 0, 0);
    context.fillStyle = getComputedStyle(this.canvas).color;
    context.font = `bold ${size}px sans-serif`;
    context.textAlign = which === "a" ? "left" : "right";
    context.fillText(which.toUpperCase(), which === "a" ? from + size / 2 : to - size / 2, 1.3 * size);
    context.restore();
  }
}

// Pictures in colours to be given away: the view as PNG at the screen's pixels, and the board as SVG to scale, which holds the
// station's own picture of each shown layer.

import { element, field } from "./dom.js";
import { lengthIn, mm, plural, seen } from "../board/index.js";
import { inkPngOf } from "../zip/index.js";
import { download } from "./saving.js";
import { isMadeShown, pileSeen, shownLayers } from "../machine/index.js";

// The view is given away when it is drawn, and for that the page waits so long: a person is told rather than kept waiting for
// a drawing that takes longer.
const PATIENCE_MS = 20000;

// What is asked: which of the two, and of the SVG at which pitch.
/** @param {Machine.State} state @returns {Page.Dialogue} */
export function giveQuestion(state) {
  const { unit } = state, dots = element("input", { type: "text", value: "1000", inputMode: "decimal" });
  const form = element("select", {}, element("option", { value: "png" }, "PNG of the view, at the screen's pixels"),
    element("option", { value: "svg" }, isMadeShown(state) ? "SVG of the board as it will be made, to scale" : "SVG of the shown layers, to scale"),
    element("option", { value: "print" }, "on paper or as PDF, to scale, by the print dialogue"));
  const way = element("select", { "aria-label": "unit of the pitch" }, element("option", { value: "dpi" }, "dots an inch"),
    element("option", { value: "pitch" }, `${unit} a pixel`));
  const row = element("div", {}, element("div", { className: "row" }, field("with", dots), way), element("p", { className: "hint" },
    isMadeShown(state) ? "It has the side that is shown, at that pitch, and the board's size in mm."
      : "It has the exact picture of each layer at that pitch, in its colour, and the board's size in mm."));
  row.hidden = true;
  form.onchange = () => { row.hidden = form.value !== "svg"; };
  return {
    title: "Save a picture in colours", parts: [field("as", form), row], choices: [["Save", "yes"], ["Cancel", "no"]],
    answer: () => {
      const pitch = way.value === "dpi" ? Math.round(25.4e6 / Number(dots.value.replace(",", "."))) : lengthIn(dots.value, unit);
      const isUsable = form.value !== "svg" || pitch !== null && pitch >= 1 && pitch <= 1e8;
      return { form: form.value, ...pitch === null ? {} : { pitch },
        why: isUsable ? null : `The dots an inch, or the ${unit} a pixel, are not a usable number.` };
    },
  };
}

const pause = () => new Promise((done) => { setTimeout(done, 20); });

// The view as it is seen, without the rulers and marks over it.
/** @param {Page.View} view */
export async function giveView(view) {
  const { width, height } = view.canvas, start = performance.now();
  view.paint();
  while (!view.isSettled) {
    if (performance.now() - start > PATIENCE_MS) throw new Error("the view is still being drawn; try again when it is.");
    await pause();
  }
  const canvas = new OffscreenCanvas(width, height);
  view.paintInto(canvas.getContext("2d", { alpha: false }));
  download("view.png", [await canvas.convertToBlob({ type: "image/png" })], "image/png");
}

/** @param {string} text */
const escaped = (text) => text.replace(/[^\t\n\r\x20-\ud7ff\ue000-\ufffd]/g, "")
  .replace(/[&<>"]/g, (letter) => `&#${letter.charCodeAt(0)};`);

/** @param {Uint8Array} bytes */
function base64(bytes) {
  const parts = [];
  for (let at = 0; at < bytes.length; at += 32766) {
    parts.push(btoa(String.fromCharCode(...bytes.subarray(at, at + 32766))));
  }
  return parts.join("");
}

// Pixels stay squares; old programs know the first, and new ones the second.
const SHARP = "image-rendering:optimizeSpeed;image-rendering:pixelated";

// An SVG of pictures over each other: { left, low, pitch, width, height } in nm and pixels, the colour of the board, of each layer
// { label, colour, opacity, png }, and what they are in words.
/**
 * @param {Machine.Area} window
 * @param {string} board
 * @param {{ label: string, colour: string, opacity: number, png: Uint8Array }[]} layers
 * @param {boolean} isMirrored
 */
export function svgOf({ left, low, pitch, width, height }, board, layers, isMirrored, what = `${plural(layers.length, "layer")}, exact pictures`) {
  const title = `${what} with pixels of ${pitch} nm; the lower left corner of the board's picture is at ${mm(left)}, ${
    mm(low)} mm${isMirrored ? "; seen from below" : ""}`;
  const image = `<image width="${width}" height="${height}" preserveAspectRatio="none" style="${SHARP}"`;
  const images = layers.map(({ label, colour, opacity, png }) => `<g opacity="${opacity}"><title>${escaped(label)}, ${colour}</title>`
    + `${image} xlink:href="data:image/png;base64,${base64(png)}"/></g>\n`);
  return `<?xml version="1.0" encoding="UTF-8"?>\n<svg xmlns="http://www.w3.org/2000/svg" xmlns:xlink="http://www.w3.org/1999/xlink" `
    + `width="${width * pitch / 1e6}mm" height="${height * pitch / 1e6}mm" viewBox="0 0 ${width} ${height}">\n`
    + `<title>${escaped(title)}</title>\n<rect width="${width}" height="${height}" fill="${board}"/>\n`
    + `<g${isMirrored ? ` transform="matrix(-1 0 0 1 ${width} 0)"` : ""}>\n${images.join("")}</g>\n</svg>\n`;
}

// The shown layers as SVG: `pictures` are the raw PBM files of the station, from the lowest layer up, in a window.
/** @param {Page.View} view @param {Machine.Pictures} given */
export async function giveSvg(view, { layers: names, window, pictures }) {
  const isLight = document.documentElement.dataset.look === "light", layers = [];
  for (const layer of pileSeen(shownLayers(view.state), view.isMirrored)) {
    const bytes = pictures[names.indexOf(layer.name)];
    if (!bytes) continue;
    const colour = seen(layer.colour, isLight);
    const png = new Uint8Array(await new Blob(await inkPngOf(bytes, window.pitch, colour)).arrayBuffer());
    layers.push({ label: layer.label, colour, opacity: layer.opacity, png });
  }
  download("board.svg", [svgOf(window, view.colours().board.trim(), layers, view.isMirrored)], "image/svg+xml");
}

// The side of the board that is shown, as SVG.
/** @param {Page.View} view @param {Machine.Area} window @param {Page.Side} made @param {Uint8Array} png */
export function giveBoardSvg(view, window, { side, mask, finish }, png) {
  const layers = [{ label: `the ${side}`, colour: `${mask} mask, ${finish}`, opacity: 1, png }];
  download("board.svg", [svgOf(window, "none", layers, view.isMirrored, `The ${side} of the board as it will be made,`)], "image/svg+xml");
}

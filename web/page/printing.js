// The shown layers to scale on paper, or as PDF by the print dialogue: the page has the board's size in mm, and the sheet on it the
// station's picture of each layer.

import { byId, contextOf, element } from "./dom.js";
import { placeSeen, seen } from "../board/index.js";
import { readPbm } from "../bytes/index.js";
import { pileSeen, shownLayers } from "../machine/index.js";

const PAPER = "#ffffff";

// A rule of the page's own style sheet says how large the paper is: a policy without styles in elements allows that.
/** @type {number | null} */
let rule = null;

/** @param {number} width @param {number} height */
function setPaper(width, height) {
  const [sheet] = document.styleSheets;
  clearPaper();
  document.documentElement.dataset.printing = "yes";
  rule = sheet?.insertRule(`@page { size: ${width}mm ${height}mm; margin: 0 }`, sheet.cssRules.length) ?? null;
}

function clearPaper() {
  if (rule !== null) document.styleSheets[0]?.deleteRule(rule);
  delete document.documentElement.dataset.printing;
  rule = null;
}

// The picture of a layer in its colour, on a canvas.
/** @param {import("../bytes/index.js").Picture} picture @param {string} colour */
function inked({ width, height, bits }, colour) {
  const canvas = new OffscreenCanvas(width, height), context = canvas.getContext("2d");
  const image = context.createImageData(width, height);
  const value = parseInt(colour.slice(1), 16), stride = width + 7 >> 3, pixels = new Uint32Array(image.data.buffer);
  const ink = (0xff000000 | (value & 255) << 16 | value & 0xff00 | value >> 16) >>> 0;
  for (let row = 0, at = 0; row < height; row++) {
    for (let column = 0; column < width; column++, at++) {
      if (/** @type {number} */ (bits[row * stride + (column >> 3)]) >> 7 - (column & 7) & 1) pixels[at] = ink;
    }
  }
  context.putImageData(image, 0, 0);
  return canvas;
}

/**
 * Puts the shown layers on the sheet and asks the browser to print it.
 * @param {Page.View} view
 * @param {Machine.Pictures} given
 */
export function printSheet(view, { layers: names, window, pictures }) {
  return printCanvas(view, window, (context) => {
    for (const layer of pileSeen(shownLayers(view.state), view.isMirrored)) {
      const bytes = pictures[names.indexOf(layer.name)];
      if (!bytes) continue;
      context.globalAlpha = layer.opacity;
      context.drawImage(inked(readPbm(bytes), seen(layer.colour, true)), 0, 0);
    }
  });
}

/**
 * Puts what `paint` draws of a window on the sheet, as it is seen, and asks the browser to print it.
 * @param {Page.View} view
 * @param {Machine.Area} window
 * @param {(context: CanvasRenderingContext2D) => void} paint
 */
export function printCanvas(view, { width, height, pitch }, paint) {
  const isTurned = view.quarters % 2 === 1, [across, down] = isTurned ? [height, width] : [width, height];
  const canvas = element("canvas", { width: across, height: down }), context = contextOf(canvas, { alpha: false });
  context.fillStyle = PAPER;
  context.fillRect(0, 0, across, down);
  placeSeen(context, { width, height }, view);
  paint(context);
  const wide = across * pitch / 1e6, high = down * pitch / 1e6;
  canvas.style.width = `${wide}mm`;
  canvas.style.height = `${high}mm`;
  byId("sheet").replaceChildren(canvas);
  setPaper(wide, high);
  window.addEventListener("afterprint", () => {
    byId("sheet").replaceChildren();
    clearPaper();
  }, { once: true });
  globalThis.print();
}

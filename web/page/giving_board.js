// The board as it will be made, given away as SVG to scale or on paper: the side that is shown, as the worker composes it.

import { giveBoardSvg } from "./giving.js";
import { printCanvas } from "./printing.js";
import { sideWanted } from "./board_view.js";

/**
 * @param {Page.View} view
 * @param {Page.Link} link
 * @param {{ window: Machine.Area, form: string }} given `window` has the picture's pixels
 */
export async function giveBoard(view, link, { window, form }) {
  const { left, low, pitch, width, height } = window, made = sideWanted(view.state, view.isMirrored);
  const line = `window ${left} ${low} ${pitch / 2} ${2 * width} ${2 * height}`;
  const { png, lacks } = await link.call("board", { made, line });
  if (!png) throw new Error(`${lacks.join("; ")}.`);
  if (form !== "print") return giveBoardSvg(view, window, made, png);
  const bitmap = await createImageBitmap(new Blob([png], { type: "image/png" }));
  return printCanvas(view, window, (context) => context.drawImage(bitmap, 0, 0));
}

// The picture of an outline whose lines are one pixel wide, whatever pen draws them.

import { Grid } from "../nets/index.js";
import { addBlack, bitsOf, white } from "./bits.js";
import { drawLines } from "./line_pixels.js";
import { outlineLines } from "./outline_lines.js";

/**
 * The pixels of an outline: those that the middles of its closed lines pass. What else it has, as an open line or a flash, is as
 * its picture has it, and then all of the picture is taken too.
 * @param {Iterable<string>} items in the words that `insert` takes
 * @param {import("../bytes/index.js").Picture} picture
 * @param {import("../board/index.js").PlotWindow} window of the picture
 * @returns {import("./bits.js").Bits}
 */
export function outlineBits(items, picture, window) {
  const made = white(picture.width, picture.height), { closed, isWhole } = outlineLines(items);
  drawLines(made, closed, new Grid(window));
  if (!isWhole) addBlack(made, bitsOf(picture));
  return made;
}

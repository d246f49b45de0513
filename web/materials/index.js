// The floor of materials: both sides of a board as they will be made, from the exact pictures of its layers.
//
// It plots nothing and draws nothing on a screen. Its inputs are one-bit pictures of the same window, and it answers which of six
// materials each pixel has, or that there is no board (docs/page.md defines them).
//
// Bits are words of 32, a row after another; a picture in colours has four bits a pixel, which are places in a table of colours.
//
//     import { MASK_NAMES, coloursOf } from "./index.js";
//     coloursOf(MASK_NAMES[0], "gold").length > 0; // true

export { bitsOf, cropped } from "./bits.js";
export { FINISH_NAMES, MASK_NAMES, coloursOf } from "./colours.js";
export { HOLES, isMade } from "./made.js";
export { nibbleRows } from "./materials.js";
export { Outline } from "./outline.js";
export { outlineBits } from "./outline_bits.js";
export { reduced } from "./reduced.js";
export { NO_OUTLINE, OPEN_OUTLINE, SIDES, boardOf, sideFromAbove, sideOf } from "./sides.js";
export { colourSquares } from "./squares.js";
export { svgOf } from "./svg.js";
export { boxBits, withinOutline } from "./within.js";

/** @typedef {import("./reduced.js").Colours} Colours */

// The floor of the board: what all others say of one. What files are and which layers they show; lengths and windows; items by
// the words of a script, with their shapes and boxes; replies and refusals in words.
//
// It is not a reader: no file is understood here past its first lines and its name, and nothing is asked of a station. It has no
// state, and does not know that there is a page.
//
// Lengths are whole nm, but where a box of a question has halves. A point is [x, y], a box { left, low, right, high }, and an
// item has its `kind`, by which its other fields are known (types.d.ts).
//
//     import { gapBetween, itemOf, lengthText, shapeOf } from "./index.js";
//     itemOf("draw 10 0 0 1000000 0 r0 dark").points; // [[0, 0], [1000000, 0]]
//     const pen = { number: 10, words: "", width: 200000, height: 200000, shape: "circle", hasHole: false, definition: "" };
//     const [one, other] = ["flash 10 0 0 r0 dark", "flash 10 1000000 0 r0 dark"].map((words) => shapeOf(words, [pen]));
//     lengthText(gapBetween(one, other).distance, "mm"); // "0.800"

export { nameOf, titleOf } from "./board_names.js";
export { boxFrom, joined } from "./boxes.js";
export { DRILL, GERBER, HEAD, endingOf, kindOf } from "./file_kinds.js";
export { boxOf, boxOfWindow, entriesFrom, itemOf, outlineOf, renumbered, shifted } from "./items.js";
export { PLAIN, byFunction, fileFunction, functionFields, inner, plain } from "./layer_functions.js";
export { BY_ATTRIBUTE, Layer, nameParts, recognise, recogniseFiles } from "./layers.js";
export { UNIT_WORDS, isNumber, lengthOf } from "./lengths.js";
export { placeSeen } from "./quarters.js";
export { excerpt, explain, meaningsOf, placeOf } from "./refusals.js";
export { Reply, repliesOf, scriptLines, wordsOf } from "./replies.js";
export { edgeOf, gapBetween, pointsOf, shapeOf, sidesOfRegion } from "./shapes.js";
export { arcThrough, far, middleOf } from "./sides.js";
export { middleFor, turned } from "./turned.js";
export {
  BOARD, NM_PER_MM, UNITS, areaText, lengthIn, lengthText, mm, plural, point, pointIn, seen, short, snapped, wholeOf,
  wordsIn,
} from "./units.js";
export { PITCH, SIDE, describeWindow, isInWindow, pitchOf, windowAround, windowAtPitch, windowLine } from "./windows.js";

/** @typedef {import("./boxes.js").Box} Box */
/** @typedef {import("./layer_functions.js").LayerFunction} LayerFunction */
/** @typedef {import("./layers.js").BoardFile} BoardFile */
/** @typedef {import("./windows.js").PlotWindow} PlotWindow */

// The floor of telling: what an item is in words, what a board can be searched for, and what there is to say of it.
//
// It asks no station and draws nothing: its inputs are the lines that a station gives of items, apertures and tools, and what the
// files say of them.
//
// A layer is a ToldLayer, which has its items' lines and what its file says of each. An index is made once for the layers of a
// board, and finds as a person types.
//
//     import { find, indexOf } from "./index.js";
//     find(indexOf([]), "R1").groups; // []

export { aboutBoard, textOf } from "./about.js";
export { alikeOf } from "./alike.js";
export { componentsOf } from "./attributes.js";
export { fileSays } from "./files.js";
export { find, placeIn } from "./find.js";
export { itemWords, sentenceOf } from "./item.js";
export { missingFiles, readJob } from "./job.js";
export { ToldLayer } from "./layers.js";
export { KINDS, folded, indexOf } from "./search_index.js";

/** @typedef {import("./alike.js").Alike} Alike */
/** @typedef {import("./search_index.js").Entry} Entry */
/** @typedef {import("./search_index.js").Index} Index */
/** @typedef {import("./search_index.js").Lights} Lights */

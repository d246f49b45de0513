// The floor of workers: four threads of the page, each begun by a file that nobody imports. main.js has the station, draws it and
// answers what the page asks; nets_worker.js follows its lines and knows the nets; converting_worker.js converts and unpacks;
// comparing_worker.js compares two boards.
//
// It is not the page, and does not know what is shown for what. A worker keeps no state of the page.
//
// A message is { number, kind, .. } or { call, kind, .. }, and its answer has the same number or call. Pictures come between.
//
//     import { convertedOf } from "./converting.js";
//     const file = new TextEncoder().encode("M48\nMETRIC,LZ\nT01C0.800\n%\nT01\nX001Y002\nM30\n");
//     convertedOf("drill", file).changes[0]; // "unit: mm (METRIC,LZ on line 2)"

export { touched } from "./choosing.js";

/** @typedef {import("./compared_boards.js").PairRow} PairRow */
/** @typedef {import("./compared_boards.js").PlaceShown} PlaceShown */
/** @typedef {import("./compared_side.js").BoardLines} BoardLines */
/** @typedef {import("./converting.js").Choices} Choices */
/** @typedef {import("./converting.js").Converted} Converted */

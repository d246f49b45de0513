// The floor of comparing: two revisions of a board, layer by layer, by their items and by their pixels.
//
// It asks no station and plots nothing: its inputs are the texts that a station writes of the layers, what the files say of them,
// and one-bit pictures of the same window.
//
// A pair has the layers of both sides that show the same; a change tells what came, went, moved or has another aperture, with the
// boxes where it does, in nm; a place is a group of changes that lie together, with its window.
//
//     import { SAME, pairedLayers } from "./index.js";
//     SAME; // "same"

export { Compared, DIFFERS, SAME, SAME_PICTURE } from "./layers.js";
export { Owners, besides, isAnother, isSamePair, labelOfPair, outcomeOf, outcomeWords, summaryWords } from "./outcomes.js";
export { functionsOfJobs, pairedLayers, tellByJobs } from "./pairs.js";
export { Difference } from "./pixels.js";
export { windowOfPlace } from "./places.js";
export { attributeWords, changeWords, placeLine, saidWords } from "./words.js";

/** @typedef {import("./changes.js").Change} Change */
/** @typedef {import("./outcomes.js").PairFound} PairFound */
/** @typedef {import("./pairs.js").Pair} Pair */
/** @typedef {import("./places.js").Place} Place */

// The floor of attributes: what a Gerber file says of its items and apertures by TF, TA, TO and TD, which the station does not
// keep; carried through the lines of a script, and written into a layer's text again.
//
// It is not a reader of pictures: where it counts items otherwise than the station does, the two are not joined.
//
// Of each item there is { attributes, objects }, counted as the station counts; an attribute is { command, name, fields, text }.
//
//     import { named, readAttributes } from "./index.js";
//     const file = "%FSLAX46Y46*%\n%MOMM*%\n%ADD10C,1*%\nD10*\n%TO.N,GND*%\nX0Y0D03*\nM02*\n";
//     const { items } = readAttributes(new TextEncoder().encode(file));
//     named(items[0].attributes, ".N").fields; // ["GND"]

export { begun, carried, saidOf } from "./carry.js";
export { Commands, commentOf, packed, standardComment } from "./commands.js";
export { Dictionary } from "./dictionary.js";
export { dropped, droppedWords } from "./dropped.js";
export { NotJoined, named, plainText, readAttributes } from "./read.js";
export { checkedWithAttributes } from "./write.js";

/** @typedef {import("./read.js").Objects} Objects */
/** @typedef {import("./read.js").Reading} Reading */
/** @typedef {import("./read.js").Said} Said */
/** @typedef {import("./text.js").Attribute} Attribute */

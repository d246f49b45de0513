// The floor of nets: which copper of a board is one piece, by pictures of its layers at one pitch, compared with a netlist or with
// what the files say of their pads; and rules of a house about it.
//
// It is not exact as the station is: a gap or a bridge narrower than a pixel may be missed (docs/nets.md). It draws nothing: it
// is handed pictures, and asks a station for items.
//
// A picture becomes runs of black in bands of rows; a net is a number; a place is { layer, x, y }, with layers by their places in
// the stack and lengths in nm.
//
//     import { netsOf, runsOf } from "./index.js";
//     const copper = runsOf({ width: 8, height: 1, stride: 1, bits: Uint8Array.of(0b11000110) });
//     netsOf([copper]).count; // 2

export { AcceptedFindings, acceptedText, isAcceptedFile, isSame, lineOf, readAccepted } from "./accepted.js";
export { alignmentOf, alignmentWords, copiesAt, isEnough, shifted } from "./alignment.js";
export { copyName, pointsOfAttributes } from "./attribute_points.js";
export { nearPlaces } from "./clearances.js";
export { MOST_FULL, compareNets } from "./compare.js";
export { coversInWindow, coversOf, neededBy, sidesOf, uncheckedOf } from "./covers.js";
export { Desk } from "./desk.js";
export { difference, flatRows, runsOfFlat, union } from "./discs.js";
export { KINDS, Keeping, breachWords, findingsOf, uncheckedWords } from "./findings.js";
export { flatItems } from "./flat_items.js";
export { Grid, limitWords, limitsOf } from "./grid.js";
export { isNetlist, readNetlist } from "./ipc.js";
export { placesOf } from "./item_places.js";
export { throughDisc } from "./measures.js";
export { thinPlaces } from "./necks.js";
export { netsOf } from "./nets.js";
export { closedLines, linesOfItem } from "./outline.js";
export { pixelsOfLines } from "./outline_pixels.js";
export { layerReader, numbersOf, pointsOfNetlist } from "./points.js";
export { Report, pointNames } from "./report.js";
export { RULES, readRules, takeRule } from "./rule_table.js";
export { RuleCheck, breachesOf, inOrder } from "./rules.js";
export { runsOf } from "./runs.js";
export { copiesOf, padsOf, saidItems } from "./said.js";
export { shareOf } from "./shares.js";
export { stackOf, toolsWithoutPlating } from "./stack.js";
export { holesOf } from "./strokes.js";
export { Union } from "./union.js";
export { counted, mm, placeWords } from "./words.js";

/** @typedef {import("./accepted.js").Kept} Kept */
/** @typedef {import("./alignment.js").Alignment} Alignment */
/** @typedef {import("./compare.js").Bare} Bare */
/** @typedef {import("./rules.js").Breach} Breach */
/** @typedef {import("./rules.js").Checked} Checked */
/** @typedef {import("./compare.js").Loose} Loose */
/** @typedef {import("./compare.js").Open} Open */
/** @typedef {import("./compare.js").Short} Short */
/** @typedef {import("./covers.js").Unchecked} Unchecked */
/** @typedef {import("./findings.js").Finding} Finding */
/** @typedef {import("./ipc.js").Netlist} Netlist */
/** @typedef {import("./measures.js").Measure} Measure */
/** @typedef {import("./mask_rules.js").Side} Side */
/** @typedef {import("./nets.js").Nets} Nets */
/** @typedef {import("./points.js").NetPoint} NetPoint */
/** @typedef {import("./runs.js").Runs} Runs */
/** @typedef {import("./flat_items.js").SaidItems} SaidItems */
/** @typedef {import("./strokes.js").Hole} Hole */

// What the tests of web/telling share: layers of example boards, and definitions as a station answers them.

import { readFileSync } from "node:fs";
import { join } from "node:path";
import { EXAMPLES } from "./support.js";
import { ToldLayer } from "../telling/layers.js";
import { fileSays } from "../telling/files.js";
import { latin1Bytes } from "../bytes/index.js";
import { plainItems } from "./plain_items.js";

export const example = (path) => new Uint8Array(readFileSync(join(EXAMPLES, path)));

// KiCad's RoundRect in the canonical text: of a radius and four corners in mm.
export function roundRectangle(number, radius, corners) {
  const mm = (value) => value.toFixed(6), at = (point) => point.map(mm).join(","), diameter = mm(2 * radius);
  const sides = corners.map((corner, index) => `20,1,${diameter},${at(corner)},${at(corners[(index + 1) % 4])},0*`);
  return [`aperture ${number}`, `%AMM${number}*`, `4,1,4,${[...corners, corners[0]].map(at).join(",")},0*`,
    ...corners.map((corner) => `1,1,${diameter},${at(corner)},0*`), ...sides, "%", `%ADD${number}M${number}*%`];
}

// Corners in the order of KiCad: upper left, lower left, lower right, upper right.
export const cornersOf = (x, y) => [[-x, y], [-x, -y], [x, -y], [x, y]];

// A standard aperture as a station answers it.
export const aperture = (number, words) => [`aperture ${number}`, `%ADD${number}${words}*%`];

export const tool = (number, diameter) => [`tool ${number}`, `T${number}C${diameter.toFixed(6)}`];

// A layer of words alone.
export function layer(parts) {
  return new ToldLayer({ name: parts.shows ?? "top", label: "top copper", shows: "top", kind: "gerber", fileName: "a.gbr", items: [], entries: [],
    attributes: [], says: null, ...parts });
}

const linesOf = (items) => items.flatMap(({ words, objects }) => [words, ...objects.map((object) => `  ${object.words}`)]);

// The file attributes that a station keeps of a text: those of commands.
const commandAttributes = (bytes) => [...String.fromCharCode(...bytes).matchAll(/%TF([^*%]*)\*%/g)].map(([, text]) => text);

// A layer of a Gerber text in nm, as KiCad writes it, with the definitions of its apertures.
export function layerOfText(text, entries, parts = {}) {
  const bytes = typeof text === "string" ? latin1Bytes(text) : text;
  return layer({ items: linesOf(plainItems(bytes)), entries, attributes: commandAttributes(bytes), says: fileSays("gerber", bytes), ...parts });
}

// The top copper of examples/kicad; its items in the order of the file.
export function nightlightTop() {
  return layerOfText(example("kicad/nightlight-F_Cu.gbr"), [
    ...aperture(10, "R,1.700000X1.700000"), ...aperture(11, "O,1.700000X1.700000"), ...roundRectangle(12, 0.25, cornersOf(0.2625, 0.45)),
    ...roundRectangle(13, 0.24375, cornersOf(0.24375, 0.45625)), ...roundRectangle(14, 0.15, cornersOf(0.5875, 0.15)),
    ...aperture(15, "C,1.800000"), ...aperture(16, "C,0.800000"), ...aperture(17, "C,0.500000"), ...aperture(18, "C,0.300000"),
  ], { name: "top", fileName: "nightlight-F_Cu.gbr" });
}

// A layer of drilled holes with the items of a station.
export function drillLayer(path, items, entries, parts = {}) {
  return layer({ kind: "drill", shows: "plated", name: "plated", label: "plated holes", fileName: path.split("/").pop(), items, entries,
    says: fileSays("drill", example(path)), ...parts });
}

const hit = (number, x, y) => `hit ${number} ${Math.round(x * 1e6)} ${Math.round(y * 1e6)}`;

// The plated holes of examples/kicad.
export function nightlightPlated() {
  return drillLayer("kicad/nightlight-PTH.drl", [hit(1, 116.0625, -93.4), hit(1, 122.5, -82.5), hit(1, 124.6, -92.5), hit(1, 106.5, -96.5),
    hit(2, 113.5, -95.5), hit(2, 118.5, -95.5), hit(3, 104, -88.73), hit(3, 104, -91.27)],
  [...tool(1, 0.4), ...tool(2, 0.8), ...tool(3, 1)]);
}

// Its holes without plating: a slot and two holes for screws.
export function nightlightUnplated() {
  return drillLayer("kicad/nightlight-NPTH.drl", ["rout 1 126500000 -84000000 126500000 -87000000", hit(2, 103, -83), hit(2, 127, -97)],
    [...tool(1, 1.2), ...tool(2, 2.2)], { shows: "nonplated", name: "nonplated", label: "holes without plating" });
}

// Its outline.
export function nightlightOutline() {
  return layerOfText(example("kicad/nightlight-Edge_Cuts.gbr"), aperture(10, "C,0.100000"),
    { shows: "outline", name: "outline", label: "outline", fileName: "nightlight-Edge_Cuts.gbr" });
}

// Small boards for tests: files of copper, holes and an outline, written by a few lines.

import { writeFileSync } from "node:fs";
import { join } from "node:path";
import { recordOf } from "./netlists.js";

const nm = (mm) => Math.round(mm * 1e6);
/** @param {number[]} place */
const at = ([x, y]) => `X${nm(x)}Y${nm(y)}`;

/** The words of a Gerber file, places in mm. */
export const draw = (aperture, from, ...to) => [`D${aperture}*`, `${at(from)}D02*`, ...to.map((place) => `${at(place)}D01*`)].join("\n");
export const flash = (aperture, ...places) => [`D${aperture}*`, ...places.map((place) => `${at(place)}D03*`)].join("\n");
export const region = (...corners) => ["G36*", `${at(corners[0])}D02*`, ...[...corners.slice(1), corners[0]].map((place) => `${at(place)}D01*`), "G37*"].join("\n");
export const box = (left, low, right, high) => [[left, low], [right, low], [right, high], [left, high]];
export const net = (name, ...lines) => [`%TO.N,${name}*%`, ...lines, "%TD*%"].join("\n");
export const clear = (...lines) => ["%LPC*%", ...lines, "%LPD*%"].join("\n");

/** A Gerber file: its function, what its apertures from D10 on are, and its lines. */
export function gerber(layerFunction, apertures, ...lines) {
  return [`%TF.FileFunction,${layerFunction}*%`, "%FSLAX46Y46*%", "%MOMM*%", ...apertures.map((words, number) => `%ADD${10 + number}${words}*%`),
    "%LPD*%", "G01*", ...lines, "M02*", ""].join("\n");
}

/** A drill file: its function, and the tools with their hits; a hit of two places is a slot. */
export function drill(layerFunction, tools) {
  const head = tools.flatMap(({ diameter, before }, number) => [...before ? [before] : [], `T${number + 1}C${diameter.toFixed(3)}`]);
  const place = (/** @type {number[]} */ [x, y]) => `X${x.toFixed(3)}Y${y.toFixed(3)}`;
  const body = tools.flatMap(({ hits }, number) => [`T${number + 1}`, ...hits.flatMap((hit) => (Array.isArray(hit[0])
    ? [`G00${place(hit[0])}`, "M15", `G01${place(hit[1])}`, "M16", "G05"] : [place(hit)]))]);
  return ["M48", ...layerFunction ? [`; #@! TF.FileFunction,${layerFunction}`] : [], "METRIC", ...head, "%", "G05", ...body, "M30", ""].join("\n");
}

/**
 * A netlist of records, as `recordOf` takes them, but places and sizes in mm.
 * @param {*[]} records
 */
export function netlist(records) {
  const counts = (mm) => (mm === undefined ? null : Math.round(mm * 1000));
  return ["P  UNITS CUST 1", ...records.map(({ x, y, width, height, hole, ...more }) => recordOf({ x: counts(x), y: counts(y),
    width: counts(width), height: counts(height), hole: counts(hole), ...more })), "999", ""].join("\n");
}

/**
 * Writes files into a folder.
 * @param {string} folder
 * @param {Record<string, string>} files
 */
export function write(folder, files) {
  for (const [name, text] of Object.entries(files)) writeFileSync(join(folder, name), text);
}

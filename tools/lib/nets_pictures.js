// Pictures of findings: the copper around each place, the nets that it is about in colours, and its measure.

import { mkdirSync } from "node:fs";
import { join } from "node:path";
import { Failure, say } from "./command.js";
import { noteWritten, reasonOf, replaceFile } from "./files.js";
import { COLOURS, Drawn, SIDE } from "./nets_drawn.js";
import { pngOfColours } from "./png.js";
import { counted } from "../../web/nets/index.js";
import { Series } from "./series.js";

/** So many pictures are written. */
const MOST = 200;

// The findings with the places that their pictures show, and the copper nets that are coloured.
/** @param {import("./nets_answer.js").Answer} answer @returns {import("./nets_drawn.js").Shown[]} */
function shownOf({ found: { opens, shorts, bare }, gaps, necks, breaches, nets, grid }) {
  /** @param {import("./nets_drawn.js").Place} place @returns {number} */
  const at = ({ layer, x, y }) => nets.netAt(layer, grid.columnOf(x), grid.rowOf(y)) ?? -1;
  /** @type {import("./nets_drawn.js").Shown[]} */
  const shown = [];
  for (const { parts, gaps: between } of opens) {
    for (const { kind, from, to, part, other, distance } of between) {
      const isMeasured = kind === "copper";
      shown.push({ what: "open", places: [from, to], nets: [part, other].flatMap((number) => parts[number]?.copper ?? []),
        measure: isMeasured ? [from, to] : null, value: isMeasured ? distance : null });
    }
  }
  for (const { touching } of shorts) {
    for (const { place, measure, width } of touching) shown.push({ what: "short", places: [place], nets: [at(place)], measure, value: width });
  }
  for (const { point: { x, y, layers: [layer] } } of bare) {
    if (layer !== undefined) shown.push({ what: "no-copper", places: [{ layer, x, y }], nets: [], measure: null, value: null });
  }
  for (const { from, to, distance } of gaps) shown.push({ what: "gap", places: [from, to], nets: [at(from), at(to)], measure: [from, to], value: distance });
  for (const { place, measure, width } of necks) shown.push({ what: "neck", places: [place], nets: [at(place)], measure, value: width });
  for (const { rule, layer, from, to, nets: own, measure, value } of breaches) {
    const on = layer ?? 0;
    shown.push({ what: rule, places: [{ ...from, layer: on }, ...to ? [{ ...to, layer: on }] : []], nets: own, measure, value });
  }
  return shown;
}

/**
 * Writes a picture of each finding.
 * @param {import("./nets_answer.js").Answer} answer
 * @param {string} folder a new one
 */
export function drawFindings(answer, folder) {
  try {
    mkdirSync(folder, { recursive: true });
  } catch (fault) {
    throw new Failure(`${folder} cannot be made: ${reasonOf(fault)}; --pictures names another folder`);
  }
  const shown = shownOf(answer), series = new Series(folder);
  const drawn = shown.slice(0, MOST).map((finding, at) => ({ finding, name: `${String(at + 1).padStart(3, "0")}-${finding.what}.png` }));
  series.plan(drawn.map(({ name }) => name));
  series.during(() => drawn.forEach(({ finding, name }) => {
    replaceFile(join(folder, name), pngOfColours(SIDE, SIDE, new Drawn(answer, finding).pixels, COLOURS));
    series.done(name);
  }));
  if (drawn.length) noteWritten(folder);
  const left = shown.length - MOST;
  say(`${counted(Math.min(shown.length, MOST), "picture")} written into ${folder}${left > 0 ? `, and ${left} left out` : ""}`);
}

// What lies on the outer copper of a board, for rules: mask, ink and paste, and the pads; and which rules cannot be checked without
// them.

import { headOf } from "../station/index.js";
import { flatItems } from "./flat_items.js";
import { flatRows, runsOfFlat, union } from "./discs.js";
import { placesOf } from "./item_places.js";


/** @typedef {import("../board/index.js").Layer} Layer */

/** The outer sides, and the functions of the layers on them, each with what people call it and the rules that need it. */
const SIDES = ["top", "bottom"];
const COVERS = [
  { what: "mask", called: "solder mask", rules: ["mask-web", "mask-bare", "silk-bare", "paste"] },
  { what: "silk", called: "ink", rules: ["silk-bare"] },
  { what: "paste", called: "paste", rules: ["paste"] },
];
/** Those that the window reaches around; ink may lie anywhere. */
const DRAWN = ["mask", "paste"];

/**
 * A board with covers.
 * @typedef {object} Covered
 * @property {import("./stack.js").Stack} stack
 * @property {Layer[]} covers
 */

/**
 * The functions of layers, as `mask`, that the rules of some limits need.
 * @param {Map<string, number>} limits
 */
export function neededBy(limits) {
  return COVERS.filter(({ rules }) => rules.some((rule) => limits.has(rule))).map(({ what }) => what);
}

/**
 * The layers of a board that show these.
 * @param {Layer[]} layers
 * @param {string[]} needed
 */
export function coversOf(layers, needed) {
  const names = needed.flatMap((what) => SIDES.map((side) => `${side}-${what}`));
  return layers.filter(({ layerFunction: { name } }) => names.includes(name));
}

/**
 * Which of its covers a window reaches around.
 * @param {Layer[]} covers
 */
export const coversInWindow = (covers) => covers.filter(({ layerFunction: { name } }) => DRAWN.includes(name.split("-")[1] ?? ""));

/**
 * The outer copper that is there.
 * @param {Pick<Covered, "stack">} board
 */
function outerOf({ stack }) {
  return SIDES.flatMap((name) => {
    const layer = stack.copper.findIndex(({ layer: { layerFunction } }) => layerFunction.name === name);
    const copper = stack.copper[layer];
    return copper ? [{ name, layer, copper: copper.layer }] : [];
  });
}

/**
 * Places of each pad of a copper layer: of its dark flashes, the centre first.
 * @param {import("./flat_items.js").SaidItems} said
 * @returns {[number, number][][]}
 */
function padPlaces(said) {
  const isBlock = (/** @type {string} */ words) => said.blocks.has(headOf(words).number ?? -1);
  return flatItems(said).filter(({ item, isDark }) => isDark && headOf(item.words).kind === "flash" && !isBlock(item.words))
    .map(({ item, move }) => placesOf(item).map(move));
}

/**
 * The outer layers of copper with what lies on them.
 * @param {Covered} board
 * @param {object} its
 * @param {(layer: Layer) => import("./runs.js").Runs} its.runsOf the picture of a layer in the window
 * @param {(layer: Layer) => import("./flat_items.js").SaidItems} its.saidOf the items of one
 * @param {import("./strokes.js").Hole[]} its.holes
 * @param {import("./points.js").NetPoint[]} its.points
 * @returns {import("./mask_rules.js").Side[]}
 */
export function sidesOf(board, { runsOf, saidOf, holes, points }) {
  return outerOf(board).map(({ name, layer, copper }) => {
    const shown = (/** @type {string} */ what) => {
      const pictures = board.covers.filter(({ layerFunction }) => layerFunction.name === `${name}-${what}`).map(runsOf), [first] = pictures;
      if (!first || pictures.length < 2) return first ?? null;
      return runsOfFlat(pictures.map(flatRows).reduce(union), first.width);
    };
    const openings = shown("mask"), told = points.filter(({ isPin, layers }) => isPin && layers.includes(layer))
      .map(({ x, y, spots }) => /** @type {[number, number][]} */ ([[x, y], ...(spots ?? []).filter((spot) => spot.layer === layer).map((spot) => [spot.x, spot.y])]));
    const drilled = holes.filter(({ isPlated }) => isPlated).map(({ line }) => line.slice(0, 1));
    return { name, layer, openings, ink: shown("silk"), paste: shown("paste"), pads: openings ? [...padPlaces(saidOf(copper)), ...told, ...drilled] : [] };
  });
}

/**
 * A rule that cannot be checked on some side, and why.
 * @typedef {{rule: string, side: string | null, why: string}} Unchecked
 */

/**
 * The rules that cannot be checked, and why.
 * @param {Covered} board
 * @param {Map<string, number>} limits
 * @param {import("./points.js").NetPoint[]} points
 * @returns {Unchecked[]}
 */
export function uncheckedOf(board, limits, points) {
  const names = board.covers.map(({ layerFunction: { name } }) => name);
  const ofSides = [...new Set(COVERS.flatMap(({ rules }) => rules))].filter((rule) => limits.has(rule))
    .flatMap((rule) => outerOf(board).flatMap(({ name }) => {
      const lacking = COVERS.find(({ what, rules }) => rules.includes(rule) && !names.includes(`${name}-${what}`));
      return lacking ? [{ rule, side: name, why: `no file shows its ${lacking.called}` }] : [];
    }));
  const isTold = points.some(({ isDrilled }) => isDrilled) || !limits.has("pad-hole");
  return isTold ? ofSides : [...ofSides, { rule: "pad-hole", side: null, why: "no netlist and no attribute names a pad with a plated hole" }];
}

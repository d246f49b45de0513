// What layers show: their name on the page, their colour and their place in the pile follow from their function, until a
// person chooses another. The function of a Gerber layer is the attribute of its text, so a line sets it, and an undo takes
// it back; of a drill layer, whose text has none, it is the page's alone.

import { PLAIN, byFunction, inner } from "../board/index.js";
import { pairs } from "./pairs.js";

const INNER = /^in(\d+)$/;
// With both sides 32 layers of copper, as many as KiCad has.
const MOST_INNER = 30;

// The functions that can be chosen, from the bottom up: [{ name, label }].
export const FUNCTIONS = [...PLAIN.values(), ...Array.from({ length: MOST_INNER }, (_, at) => inner(at + 1))]
  .sort((one, other) => one.height - other.height || other.name.localeCompare(one.name, "en", { numeric: true }));

const SIDES = new Map([["top", "Top"], ["bottom", "Bot"]]);
const ON_A_SIDE = new Map([["mask", "Soldermask"], ["silk", "Legend"], ["paste", "Paste"], ["glue", "Glue"]]);
const HOLES = new Map([["plated", ["Plated", "PTH"]], ["nonplated", ["NonPlated", "NPTH"]], ["holes", ["MixedPlating", "PTH"]]]);
const OTHER = "Other,other";
const OTHERS = new Map([["outline", "Profile,NP"], ["drawing", "OtherDrawing,drawing"], ["other", OTHER]]);

// How many layers of copper the board has, by what its layers show: two at least.
/** @param {Pick<Machine.Look, "shows">[]} layers */
const copperOf = (layers) => 2 + Math.max(0, ...layers.map(({ shows }) => Number(INNER.exec(shows ?? "")?.[1] ?? 0)));

// The fields of the attribute .FileFunction for a function, on a board of these layers.
/** @param {string} shows @param {Machine.Layer[]} layers */
export function fieldsOf(shows, layers) {
  const number = INNER.exec(shows)?.[1], [side = "", what = ""] = shows.split("-"), last = copperOf([...layers, { shows }]);
  if (number) return `Copper,L${Number(number) + 1},Inr`;
  if (shows === "top") return "Copper,L1,Top";
  if (shows === "bottom") return `Copper,L${last},Bot`;
  const sided = ON_A_SIDE.get(what), of = SIDES.get(side), holes = HOLES.get(shows);
  if (sided && of) return `${sided},${of}`;
  return holes ? `${holes[0]},1,${last},${holes[1]}` : OTHERS.get(shows) ?? OTHER;
}

const PARTS = /** @type {const} */ (["label", "colour", "height", "shows"]);
/** @param {Machine.Look} from */
const partsOf = ({ label, colour, height, shows }) => ({ label, colour, height, shows });

// What a layer is by its file alone.
/** @param {Machine.Look} layer @returns {Machine.Following} */
export const byFile = (layer) => ({ ...partsOf(layer), value: null });

// A layer under a function; another one that is called the same is told apart by its file.
/**
 * @param {import("../board/index.js").LayerFunction} found
 * @param {string} value
 * @param {Machine.Layer} layer
 * @param {Machine.Layer[]} layers
 * @returns {Machine.Following}
 */
function byName({ name, label, colour, height }, value, layer, layers) {
  const isTaken = layers.some((other) => other.name !== layer.name && other.label === label);
  return { label: isTaken ? `${label} (${layer.file ?? layer.name})` : label, colour, height, shows: name, value };
}

/** @param {string} value @param {Machine.Layer} layer @param {Machine.Layer[]} layers */
function byValue(value, layer, layers) {
  const [plain = ""] = [...OTHERS].find(([, fields]) => fields === value) ?? [];
  return byName(PLAIN.get(plain) ?? byFunction(value), value, layer, layers);
}

// The layer with what follows from a function now. What is another thing than followed from the one before was chosen by a
// person, and stays.
/** @param {Machine.Layer} layer @param {Machine.Following} now @returns {Machine.Layer} */
function following(layer, now) {
  const { by } = layer;
  // (one that is still to be loaded follows nothing yet)
  if (!by || by.value === now.value) return layer;
  const changed = PARTS.filter((part) => layer[part] === by[part]);
  return { ...layer, ...Object.fromEntries(changed.map((part) => [part, now[part]])), by: now };
}

/** @param {Machine.Layer[]} layers */
export const inOrder = (layers) => [...layers].sort((one, other) => one.height - other.height);

// What the lines that are in the document say last of the function of each layer.
/** @param {Machine.Steps} steps */
function saidOf({ at: { functions } }) {
  /** @type {Map<string, string | null>} */
  const said = new Map();
  for (let at = functions; at; at = at.before) if (!said.has(at.layer)) said.set(at.layer, at.fields);
  return said;
}

// The layers as the lines that are in the document have them.
/** @param {Machine.Layer[]} layers @param {Machine.Steps} steps */
export function withFunctions(layers, steps) {
  /** @type {Map<string, string | null>} */
  const said = saidOf(steps);
  const found = layers.map((layer) => {
    if (layer.kind !== "gerber" || !layer.base) return layer;
    const value = said.get(layer.name) ?? null;
    return following(layer, value === null ? layer.base : byValue(value, layer, layers));
  });
  return found.some((layer, at) => layer !== layers[at]) ? inOrder(found) : layers;
}

// The layers where one that no line can say it of shows something else.
/** @param {Machine.Layer[]} layers @param {string} name @param {string} shows */
export function withShown(layers, name, shows) {
  const chosen = FUNCTIONS.find((one) => one.name === shows);
  if (!chosen) return layers;
  return inOrder(layers.map((layer) => layer.name === name ? following(layer, byName(chosen, shows, layer, layers)) : layer));
}

// The layers with one of them so many places further up. Places are numbers, which no two have then.
/** @param {Machine.Layer[]} layers @param {string} name @param {number} by */
export function withMoved(layers, name, by) {
  const from = layers.findIndex((layer) => layer.name === name), to = from + by;
  if (from < 0 || to < 0 || to >= layers.length) return layers;
  const heights = layers.map(({ height }) => height), moved = layers.slice();
  moved.splice(to, 0, ...moved.splice(from, 1));
  let last = -Infinity;
  return pairs(moved, heights).map(([layer, height]) => {
    last = height > last ? height : last + 1e-6;
    return layer.height === last ? layer : { ...layer, height: last };
  });
}

// The two sides of a board by its layers: which pictures each has, what is board, and what lacks.

import { functionFields } from "../board/index.js";
import { blackBox, joinedBits, white } from "./bits.js";
import { COPPER, HOLES, isMade } from "./made.js";
import { materialsOf, mirrored } from "./materials.js";
import { boxBits, withinOutline } from "./within.js";

/** @typedef {import("./bits.js").Bits} Bits */

/**
 * A layer with its picture; all pictures are of one window. `shows` is the name of its function, as `top-mask`, and `said` what its
 * file says of that, as `Plated,1,2,Blind`, or null. The outline has the pixels of its lines.
 * @typedef {{shows: string, said: string | null, bits: Bits}} Plotted
 */

/** @typedef {"top" | "bottom"} Side */

/** @type {Side[]} */
export const SIDES = ["top", "bottom"];

// The first and the last copper layer that the holes of a file pass; null where it names none.
/** @param {Plotted} layer */
function spanOf({ said }) {
  const numbers = said === null ? [] : functionFields(said).slice(1, 3).map(Number);
  return numbers.length === 2 && numbers.every((number) => number >= 1) ? { from: Math.min(...numbers), to: Math.max(...numbers) } : null;
}

// The number of the lowest copper layer that any file names.
/** @param {Plotted[]} layers */
function lowestOf(layers) {
  const numbers = layers.flatMap((layer) => {
    if (COPPER.test(layer.shows)) return [Number(/^Copper,\s*L(\d+)/.exec(layer.said ?? "")?.[1] ?? 1)];
    return HOLES.includes(layer.shows) ? [spanOf(layer)?.to ?? 1] : [];
  });
  return Math.max(1, ...numbers);
}

// The plated holes of a side: those through all of the board, and those that end inside it.
/** @param {Plotted[]} layers @param {Side} side */
function platedOf(layers, side) {
  const lowest = lowestOf(layers);
  /** @type {Bits[]} */
  const through = [];
  /** @type {Bits[]} */
  const ending = [];
  for (const layer of layers.filter(({ shows }) => HOLES.includes(shows))) {
    const { from, to } = spanOf(layer) ?? { from: 1, to: lowest };
    if (from === 1 && to >= lowest) through.push(layer.bits);
    else if (side === "top" ? from === 1 : to >= lowest) ending.push(layer.bits);
  }
  return { through, ending };
}

/** What is told where there is no outline, and where it is not closed. */
export const NO_OUTLINE = "no outline: the board is the box of all layers";
export const OPEN_OUTLINE = "the outline is not closed: the board is the box around it";

/**
 * The pixels of the board: within the first outline that is closed, else in the box around the first that paints something, else in
 * that around all layers that are made.
 * @param {Plotted[]} layers
 * @returns {{board: Bits, told: string | null}} what lacks, in a line
 * @throws {Error} where there is no layer
 */
export function boardOf(layers) {
  const outlines = layers.filter(({ shows }) => shows === "outline").map(({ bits }) => bits);
  for (const outline of outlines) {
    const board = withinOutline(outline);
    if (board) return { board, told: null };
  }
  const [first] = layers;
  if (!first) throw new Error("no layer is there");
  const { width, height } = first.bits, made = layers.filter(({ shows }) => isMade(shows)).map(({ bits }) => bits);
  const around = outlines.map(blackBox).find((box) => box), all = joinedBits(made), box = around ?? (all && blackBox(all));
  return { board: box ? boxBits(width, height, box) : white(width, height), told: around ? OPEN_OUTLINE : NO_OUTLINE };
}

/**
 * A side of a board: its materials as a person sees them, the bottom from below, and what lacks, in words.
 * @param {Plotted[]} layers
 * @param {Side} side
 * @param {Bits} board as `boardOf` gives it
 * @param {number} pitch in nm
 * @returns {{materials: import("./materials.js").Materials, lacks: string[]}}
 */
export function sideOf(layers, side, board, pitch) {
  const { materials, lacks } = sideFromAbove(layers, side, board, pitch);
  return { materials: side === "top" ? materials : mirrored(materials), lacks };
}

/**
 * The same with each pixel where the pictures have it, as seen from above through the board.
 * @param {Plotted[]} layers
 * @param {Side} side
 * @param {Bits} board
 * @param {number} pitch in nm
 * @returns {{materials: import("./materials.js").Materials, lacks: string[]}}
 */
export function sideFromAbove(layers, side, board, pitch) {
  const of = (/** @type {string} */ shows) => joinedBits(layers.filter((layer) => layer.shows === shows).map(({ bits }) => bits));
  const { through, ending } = platedOf(layers, side), copper = of(side), mask = of(`${side}-mask`), silkscreen = of(`${side}-silk`);
  const lacks = [...(copper ? [] : ["no copper"]), ...(mask ? [] : ["no mask: bare copper is shown"]),
    ...(silkscreen ? [] : ["no silkscreen"])];
  // The floor of a hole that ends inside the board is plated too.
  const plating = joinedBits([...(copper ? [copper] : []), ...ending]);
  const materials = materialsOf({ board, copper: plating, mask, silkscreen, plated: joinedBits(through), nonplated: of("nonplated") }, pitch);
  return { materials, lacks };
}

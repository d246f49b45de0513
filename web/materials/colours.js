// The colours of a board's materials, as houses offer them.

/**
 * The colours of solder masks: over laminate, over copper, and of the silkscreen on them.
 * @type {Map<string, [string, string, string]>}
 */
const MASKS = new Map([
  ["green", ["#0f5530", "#1d7a45", "#f3f4ef"]],
  ["red", ["#8a1519", "#b3282b", "#f3f4ef"]],
  ["blue", ["#10336f", "#1d539f", "#f3f4ef"]],
  ["black", ["#151619", "#2b2d32", "#f3f4ef"]],
  ["white", ["#dcdcd5", "#f2f1ec", "#1c1d20"]],
  ["purple", ["#371a54", "#57307f", "#f3f4ef"]],
  ["yellow", ["#b78a10", "#d9ab26", "#f3f4ef"]],
]);

/**
 * What finishes bare copper: its colour, and that of a hole's wall in it.
 * @type {Map<string, [string, string]>}
 */
const FINISHES = new Map([["tin", ["#c6cacf", "#8e9399"]], ["gold", ["#dcb654", "#a07c2a"]], ["copper", ["#c97b4c", "#8f5230"]]]);

const LAMINATE = "#988b5d";
/** Nothing is transparent; programs that don't know that show this. */
const NOTHING = "#ffffff";

/** The names of the colours of masks. */
export const MASK_NAMES = [...MASKS.keys()];
/** The names of finishes. */
export const FINISH_NAMES = [...FINISHES.keys()];

/**
 * The colour of each material, by its number.
 * @param {string} mask
 * @param {string} finish
 * @returns {string[]} as `#0f5530`
 * @throws {RangeError} where there is no such mask or finish
 */
export function coloursOf(mask, finish) {
  const ofMask = MASKS.get(mask), bare = FINISHES.get(finish);
  if (!ofMask || !bare) throw new RangeError(`no mask ${mask}, or no finish ${finish}`);
  const [overLaminate, overCopper, silkscreen] = ofMask, [copper, wall] = bare;
  return [NOTHING, LAMINATE, overLaminate, overCopper, copper, silkscreen, wall];
}

// Which layers a board is made of, by the names of their functions.

export const COPPER = /^(?:top|bottom|in\d+)$/;
/** Those of holes with plating, or of which nothing tells it. */
export const HOLES = ["plated", "holes"];
const SURFACES = /^(?:top|bottom)-(?:mask|silk)$/;

/**
 * Whether a layer of a function is made into a board, and not only drawn.
 * @param {string} shows
 */
export function isMade(shows) {
  return COPPER.test(shows) || SURFACES.test(shows) || HOLES.includes(shows) || shows === "nonplated";
}

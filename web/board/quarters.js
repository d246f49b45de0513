// Pictures from above, upright, as they are seen: mirrored left to right from below, and turned by quarters counterclockwise.

// By the quarters: where a picture of these sides goes, as a transform of a canvas.
/** @type {((width: number, height: number) => [number, number, number, number, number, number])[]} */
const TURNS = [() => [1, 0, 0, 1, 0, 0], (width) => [0, -1, 1, 0, 0, width], (width, height) => [-1, 0, 0, -1, width, height],
  (width, height) => [0, 1, -1, 0, height, 0]];

/**
 * What is painted next on a canvas lies where a picture from above has it, of these sides in pixels.
 * @param {Board.Context} context
 * @param {{ width: number, height: number }} sides
 * @param {Board.Turned} turned
 */
export function placeSeen(context, { width, height }, { quarters, isMirrored }) {
  const turn = TURNS[quarters];
  if (turn) context.setTransform(...turn(width, height));
  if (isMirrored) context.transform(-1, 0, 0, 1, width, 0);
}

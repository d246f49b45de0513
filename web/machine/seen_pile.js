// The pile of layers as it is seen from below: turned over, so that the bottom lies over the top. Outline, holes and drawings stay
// over all, as they do from above.

const SIDED = /^(?:top|bottom)(?:-|$)|^in\d+$/;

// Whether a layer lies on a side or between the two.
/** @param {{ name: string, shows?: string | null | undefined }} layer */
const isSided = ({ shows }) => SIDED.test(shows ?? "");

/**
 * Layers from the farthest to the nearest.
 * @template {{ name: string, shows?: string | null | undefined }} T
 * @param {readonly T[]} layers from the bottom up
 * @param {boolean} isBelow
 * @returns {readonly T[]}
 */
export function pileSeen(layers, isBelow) {
  if (!isBelow) return layers;
  const turned = layers.filter(isSided).reverse();
  return layers.map((layer) => isSided(layer) ? turned.shift() ?? layer : layer);
}

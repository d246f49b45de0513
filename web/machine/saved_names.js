// The names under which texts are saved: those that the files came with, in the folders of their ZIP file.

/** @param {Machine.Layer} layer */
const endingOf = ({ kind }) => kind === "drill" ? "drl" : "gbr";

// The name that the script gives to a layer's text.
/** @param {Machine.Layer} layer */
export const writtenAs = (layer) => `${layer.name}.${endingOf(layer)}`;

// A name with a number before its ending.
/** @param {string} path @param {number} number */
const numbered = (path, number) => path.replace(/(\.[^./]*)?$/, (ending) => `-${number}${ending}`);

// The path of each layer's text, by the layer's name. No two are the same, in capitals or not, since some systems do not
// tell these apart: a second one of a name has a number.
/** @param {Machine.Layer[]} layers */
export function savedPaths(layers) {
  /** @type {Map<string, string>} */
  const paths = new Map();
  const taken = new Set();
  /** @param {Machine.Layer} layer */
  const wantedBy = (layer) => layer.origin ?? writtenAs(layer);
  /** @param {Machine.Layer} layer @param {string} path */
  const take = (layer, path) => {
    if (taken.has(path.toLowerCase())) return false;
    taken.add(path.toLowerCase());
    paths.set(layer.name, path);
    return true;
  };
  const others = layers.filter((layer) => !take(layer, wantedBy(layer)));
  for (const layer of others) for (let number = 2; !take(layer, numbered(wantedBy(layer), number));) number++;
  return paths;
}

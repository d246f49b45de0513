// A layer that a station has loaded.

import { recognise } from "../board/index.js";

/**
 * The layer of a file under the name and by the word under which it was loaded.
 * @param {import("../board/index.js").BoardFile} file
 * @param {string} name
 * @param {Board.LayerKind} kind
 */
export function loadedLayer(file, name, kind) {
  const layer = recognise(file, true);
  if (!layer) throw new Error(`nothing tells what ${name} shows`);
  return Object.assign(layer, { name, kind });
}

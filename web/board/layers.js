// The layers among the files of a board: what each shows, how it is loaded, and its name in a script.

import { DRILL, GERBER, HEAD, endingOf, kindOf } from "./file_kinds.js";
import { byAttribute, labelled, plain } from "./layer_functions.js";
import { byName, drawingOf, isOfLayers, nameParts } from "./layer_names.js";

export { byAttribute, byName, nameParts };

/**
 * A file to look at; its bytes may be the first 65,536 alone. Its path is kept where it lies on a disk; a disk's names are
 * bytes, and need not be UTF-8.
 * @typedef {{name: string, bytes: Uint8Array, path?: string | Uint8Array}} BoardFile
 */

/** What told what a layer shows. */
export const BY_ATTRIBUTE = "its attribute";
const BY_NAME = "its name";
const BY_CONTENT = "what it holds";

/** A file of the board, its name in the script, and how it is loaded. */
export class Layer {
  /**
   * @param {BoardFile} file
   * @param {"gerber" | "drill"} kind the word of `load`
   * @param {import("./layer_functions.js").LayerFunction} layerFunction what it shows
   * @param {string} toldBy what told that
   */
  constructor(file, kind, layerFunction, toldBy) {
    this.file = file;
    this.kind = kind;
    this.layerFunction = layerFunction;
    this.toldBy = toldBy;
    this.name = layerFunction.name;
  }

  /** Its file under a plain name, as a script of `tools/board` loads it. */
  get copy() {
    return `files/${this.name}${endingOf(this.kind)}`;
  }

  /** Its canonical text, as such a script writes it. */
  get text() {
    return `texts/${this.name}${endingOf(this.kind)}`;
  }

  /** Its picture, as such a script plots it. */
  get picture() {
    return `${this.name}.pbm`;
  }
}

const HOLES = ["holes", "plated", "nonplated"];

/**
 * The layer of a file.
 * @param {BoardFile} file
 * @param {boolean} isNamed whether it was named by itself, so that it is a layer in any case
 * @returns {Layer | null} null where it looks like none
 */
export function recognise(file, isNamed) {
  const head = file.bytes.subarray(0, HEAD);
  const seen = kindOf(head);
  let shown = seen ? byAttribute(head) : null;
  let toldBy = BY_ATTRIBUTE;
  if (!shown) {
    shown = byName(file.name);
    toldBy = BY_NAME;
    // Of several of these, people want to know which.
    if (shown === plain("drawing") || shown === plain("other")) {
      shown = labelled(shown.name, (shown.name === "drawing" ? drawingOf(file.name) : null) ?? `${shown.label} ${file.name}`);
    }
  }
  const isHoles = shown !== null && HOLES.includes(shown.name);
  if (!seen && !isNamed && !isOfLayers(nameParts(file.name).ending)) return null;
  const kind = seen ?? (isHoles ? DRILL : GERBER);
  if (!shown || (kind === DRILL && !isHoles)) {
    shown = kind === DRILL ? plain("holes") : labelled("other", nameParts(file.name).stem);
    toldBy = BY_CONTENT;
  }
  return new Layer(file, kind, shown, toldBy);
}

/**
 * The layers of files from the bottom up, each under a name of its own (`top-2` where there is a second one), and the
 * files that are none.
 * @param {BoardFile[]} files in the order in which layers of the same height come
 * @param {boolean} areNamed whether they were named one by one
 * @returns {{layers: Layer[], others: BoardFile[]}}
 */
export function recogniseFiles(files, areNamed) {
  const layers = [], others = [];
  for (const file of files) {
    const layer = recognise(file, areNamed);
    if (layer) layers.push(layer);
    else others.push(file);
  }
  layers.sort((one, other) => one.layerFunction.height - other.layerFunction.height);
  /** @type {Set<string>} */
  const taken = new Set();
  for (const layer of layers) {
    for (let number = 2; taken.has(layer.name); number++) layer.name = `${layer.layerFunction.name}-${number}`;
    taken.add(layer.name);
  }
  return { layers, others };
}

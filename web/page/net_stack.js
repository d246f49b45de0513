// What the nets take for copper and for plated holes: what each layer shows, as the list has it, whether by the file, by its name, by a
// line of the script or by a hand. The nets read it of a layer's file, so a function that was chosen stands in that in place of the
// file's own.

import { HEAD, recognise } from "../board/index.js";
import { fieldsOf, layerOf, wordsOf } from "../machine/index.js";
import { latin1, latin1Bytes } from "../bytes/index.js";
import { stackOf } from "../nets/index.js";

const ATTRIBUTE = /TF[ \t\r\n\v\f]*\.FileFunction[ \t\r\n\v\f]*,([^*\r\n]*)/;

// The fields of the function that was chosen for a layer; null where its file alone tells it.
/** @param {Machine.Layer} layer @param {Machine.Layer[]} layers */
const chosenOf = (layer, layers) => layer.by?.value == null || !layer.shows ? null
  : layer.kind === "gerber" ? layer.by.value : fieldsOf(layer.shows, layers.filter((other) => other !== layer));

/** @param {RegExpExecArray} found */
const endOf = (found) => found.index + (found[0] ?? "").length;

// The bytes of a file that says of itself what its layer shows.
/** @param {Machine.Layer | null} layer @param {Machine.Layer[]} layers @param {Uint8Array} bytes */
export function asShown(layer, layers, bytes) {
  const fields = layer && chosenOf(layer, layers);
  if (fields === null) return bytes;
  const head = latin1(bytes.subarray(0, HEAD)), found = ATTRIBUTE.exec(head), end = /\r\n|\r|\n/.exec(head);
  // (an attribute of another function is written anew, and stands else at the head)
  const isGerber = layer?.kind === "gerber", line = end && !isGerber ? endOf(end) : 0;
  const to = found ? endOf(found) : line, from = found ? to - (found[1] ?? "").length : line;
  const words = found ? fields : isGerber ? `%TF.FileFunction,${fields}*%\n` : `; #@! TF.FileFunction,${fields}\n`;
  const said = latin1Bytes(words), made = new Uint8Array(bytes.length - (to - from) + said.length);
  made.set(bytes.subarray(0, from));
  made.set(said, from);
  made.set(bytes.subarray(to), from + said.length);
  return made;
}

// What was chosen for all layers: nets that were found under other functions are found again.
/** @param {Machine.State} state */
export const chosenFunctions = ({ layers }) => JSON.stringify(layers.map((layer) => [layer.name, chosenOf(layer, layers)]));

// What the nets take for what, in sentences: the copper from the top, and which of it plated holes join.
/** @param {Machine.State} state */
export function stackWords(state) {
  const { files, layers, told } = state, loads = told.filter(({ line, reply }) => reply.startsWith("ok") && wordsOf(line)[0] === "load");
  const known = loads.flatMap(({ line, file }) => {
    const layer = layerOf(state, wordsOf(line)[1] ?? null), given = file === undefined ? undefined : files[file];
    if (!layer || !given) return [];
    const found = recognise({ name: given.name, bytes: asShown(layer, layers, given.bytes.subarray(0, HEAD)) }, true);
    return found ? [Object.assign(found, { name: layer.name, kind: layer.kind })] : [];
  });
  const { copper, holes, leftOut } = stackOf(known);
  /** @param {{ name: string } | undefined} layer */
  const called = (layer) => layer ? layerOf(state, layer.name)?.label ?? layer.name : "";
  if (!copper.length) return "";
  return [`Copper from the top: ${copper.map(({ layer }) => called(layer)).join(", ")}.`,
    holes.length ? `Plated holes: ${holes.map(({ layer, from, to, why }) =>
      `${called(layer)}, ${called(copper[from]?.layer)} to ${called(copper[to]?.layer)} (${why})`).join("; ")}.` : "No plated holes.",
    ...leftOut.map(({ layer, why }) => `${called(layer)} is left out: ${why}.`)].join(" ");
}

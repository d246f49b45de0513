// Layers whose files say what they show, or whose names do; and those of which the call says it, by --role FILE=ROLE.

import { DRILL, GERBER, Layer, PLAIN, inner, kindOf, plain, recogniseFiles } from "../../web/board/index.js";
import { Call, Failure } from "./command.js";

const INNER = /^in([1-9]\d?)$/;
const BY_CALL = "--role";

/** @param {string} role */
function functionOf(role) {
  const found = INNER.exec(role);
  if (found) return inner(Number(found[1]));
  if (!PLAIN.has(role)) throw new Call(`--role: ${role} is none of in1, in2 .., ${[...PLAIN.keys()].join(", ")}`);
  return plain(role);
}

/**
 * The roles of a call, by the names of files.
 * @param {string[]} words as `back.gbr=bottom`
 * @returns {Map<string, import("../../web/board/index.js").LayerFunction>}
 */
export function rolesOf(words) {
  return new Map(words.map((word) => {
    const at = word.lastIndexOf("=");
    if (at < 1) throw new Call(`--role ${word}: it needs FILE=ROLE, as back.gbr=bottom`);
    return [word.slice(0, at), functionOf(word.slice(at + 1))];
  }));
}

/**
 * The layers among files, as `recogniseFiles` gives them, and those of roles as these say.
 * @param {import("../../web/board/index.js").BoardFile[]} files
 * @param {boolean} areNamed
 * @param {ReturnType<typeof rolesOf>} roles
 */
export function layersOf(files, areNamed, roles) {
  for (const name of roles.keys()) if (!files.some((file) => file.name === name)) throw new Failure(`--role: no file is called ${name}`);
  const { layers, others } = recogniseFiles(files.filter(({ name }) => !roles.has(name)), areNamed);
  for (const file of files) {
    const layerFunction = roles.get(file.name);
    if (!layerFunction) continue;
    const isHoles = /holes|plated/.test(layerFunction.name);
    layers.push(new Layer(file, kindOf(file.bytes) ?? (isHoles ? DRILL : GERBER), layerFunction, BY_CALL));
  }
  const taken = new Set();
  for (const layer of layers) {
    for (let number = 2; taken.has(layer.name); number++) layer.name = `${layer.layerFunction.name}-${number}`;
    taken.add(layer.name);
  }
  return { layers: layers.sort((one, other) => one.layerFunction.height - other.layerFunction.height), others };
}

// The side of the board as it will be made, in place of the layers: what is asked of the worker for it, its colours, and what lacks.

import { byId, element } from "./dom.js";
import { FINISH_NAMES, HOLES, MASK_NAMES, isMade } from "../materials/index.js";
import { HEAD, fileFunction } from "../board/index.js";
import { wordsOf } from "../machine/index.js";
import { asShown } from "./net_stack.js";
import { latin1 } from "../bytes/index.js";
import { toolsWithoutPlating } from "../nets/index.js";

// The picture of the side among those of the layers: no layer has a blank in its name.
export const SIDE = "the board";

const OUTLINE = "outline";
// What a tool says of its plating stands in the header of a file.
const HEADER = 1 << 20;

// What the first bytes of each layer's file say, read once; again where it shows something else.
/** @typedef {{ said: string | null, bare: number[] }} Said */
/** @type {WeakMap<Uint8Array, Map<string, Said>>} */
const known = new WeakMap();

/** @param {Machine.Layer} layer @param {Machine.State} state @param {Uint8Array} bytes @returns {Said} */
function saidOf(layer, { layers }, bytes) {
  const key = `${layer.shows} ${layer.by?.value}`, found = known.get(bytes) ?? new Map();
  known.set(bytes, found);
  if (!found.has(key)) {
    found.set(key, { said: fileFunction(asShown(layer, layers, bytes.subarray(0, HEAD))),
      bare: HOLES.includes(layer.shows ?? "") && layer.kind === "drill" ? [...toolsWithoutPlating(latin1(bytes.subarray(0, HEADER)))] : [] });
  }
  return found.get(key);
}

/**
 * The side that is asked of the worker, with all layers that it is made of: of outlines those first that a file names.
 * @param {Machine.State} state
 * @param {boolean} isBelow
 * @returns {Page.Side}
 */
export function sideWanted(state, isBelow) {
  const { made: { mask, finish }, told, files } = state, bytesOf = /** @type {Map<string, Uint8Array | undefined>} */ (new Map());
  for (const { line, reply, file } of told) {
    const [command, name = ""] = wordsOf(line);
    if (command === "load" && reply.startsWith("ok")) bytesOf.set(name, files[file ?? ""]?.bytes);
  }
  const layers = state.layers.flatMap((layer) => {
    const { name, shows } = layer, bytes = bytesOf.get(name);
    if (!shows || !isMade(shows) && shows !== OUTLINE) return [];
    return [{ name, shows, ...bytes ? saidOf(layer, state, bytes) : { said: null, bare: [] } }];
  });
  /** @param {{ shows: string, said: string | null }} layer */
  const isFirst = ({ shows, said }) => shows === OUTLINE && said !== null;
  return { side: isBelow ? "bottom" : "top", mask: chosen(MASK_NAMES, mask), finish: chosen(FINISH_NAMES, finish),
    layers: [...layers.filter(isFirst), ...layers.filter((layer) => !isFirst(layer))] };
}

// (what a browser kept may be of a page that had other colours)
/** @param {string[]} names @param {string} name */
const chosen = (names, name) => names.includes(name) ? name : names[0] ?? name;

/** @param {Page.Runner} machine @param {Partial<Machine.Made>} changes */
const change = (machine, changes) => machine.send({ kind: "setting", changes: { made: { ...machine.state.made, ...changes } } });

/** @param {Page.Runner} machine */
export const switchBoard = (machine) => change(machine, { isShown: !machine.state.made.isShown });

/** @param {Page.Runner} machine @param {Page.View} view */
export function listenToBoardView(machine, view) {
  const choices = /** @type {const} */ ([["made-mask", "mask", MASK_NAMES], ["made-finish", "finish", FINISH_NAMES]]);
  for (const [id, key, names] of choices) {
    byId(id).replaceChildren(...names.map((name) => element("option", { value: name }, name)));
    byId(id).onchange = () => change(machine, { [key]: byId(id).value });
  }
  machine.panel(({ made }) => [made], ({ made }) => {
    byId("made-mask").value = chosen(MASK_NAMES, made.mask);
    byId("made-finish").value = chosen(FINISH_NAMES, made.finish);
    byId("made-panel").hidden = !made.isShown;
    document.querySelector("[data-act=board]")?.setAttribute("aria-pressed", String(made.isShown));
    view.change();
  });
  view.onMade = ({ side, lacks }) => {
    byId("made-side").textContent = side === "top" ? "the top" : "the bottom, seen from below";
    byId("made-lacks").textContent = lacks.length ? `${lacks.join("; ")}.` : "";
  };
}

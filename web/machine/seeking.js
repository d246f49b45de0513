// A page that would show nothing of its board shows all of it: layers that are all hidden, and a view that lies elsewhere.

import { boxOf, boxOfWindow, joined } from "../board/index.js";
import { pairs } from "./pairs.js";
import { shownLayers } from "./state.js";

// The layers whose boxes are the board's: the outline alone where it has items.
/** @param {Machine.Layer[]} layers */
export function boxNames(layers) {
  const outline = layers.find((layer) => layer.name.startsWith("outline") && layer.items > 0);
  return (outline ? [outline] : layers).map(({ name }) => name);
}

/** @param {Machine.Layer} layer */
const isSeen = ({ isShown, items }) => isShown && items > 0;

// Shows these layers where no layer that has items is shown.
/** @param {Machine.Turn} turn @param {string[]} names */
export function showIfNone(turn, names) {
  const { layers } = turn.state;
  if (layers.some(isSeen)) return;
  turn.set({ layers: layers.map((layer) => names.includes(layer.name) ? { ...layer, isShown: true } : layer) });
}

// Shows all layers where a person had hidden all of them; what is shown else stays so, though it may be empty.
/** @param {Machine.Turn} turn */
export function showIfAllHidden(turn) {
  const { layers } = turn.state;
  if (!layers.some(({ isShown }) => isShown)) turn.set({ layers: layers.map((layer) => ({ ...layer, isShown: true })) });
}

// Goes to the board where the view has nothing of it.
/** @type {Machine.Kind<"seek">} */
export const seek = {
  begin(turn) {
    const names = shownLayers(turn.state).filter(isSeen).map(({ name }) => name);
    if (!names.length || turn.state.comparison) return turn.finish();
    return turn.ask({ stage: "boxes", names }, { kind: "boxes", names });
  },
  heard: {
    boxes(turn, gesture, { boxes: lines }, { names }) {
      const { state } = turn, boxes = lines.map(boxOf), main = boxNames(shownLayers(state));
      const whole = joined(pairs(names, boxes).flatMap(([name, box]) => main.includes(name) ? [box] : [])) ?? joined(boxes);
      const pictures = state.opened.filter(({ isShown }) => isShown).map(({ window }) => boxOfWindow(window));
      if (whole) turn.send({ to: "page", kind: "seek", boxes: [...boxes.flatMap((box) => box ?? []), ...pictures], whole });
      turn.finish();
    },
  },
};

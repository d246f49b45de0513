// What a person sets of the chosen layer: its name on the page, what it shows, its place in the pile; and that it is closed.

import { button, byId, element, field, redraw } from "./dom.js";
import { FUNCTIONS, layerOf } from "../machine/index.js";

// A name stands in a row of the list.
const MOST_LETTERS = 80;

/** @param {Page.Runner} machine @param {Machine.Layer} layer */
function nameField(machine, layer) {
  const input = element("input", { type: "text", value: layer.label, maxLength: MOST_LETTERS, spellcheck: false, id: "layer-label" });
  input.onchange = () => {
    const label = input.value.trim() || layer.by?.label || layer.name;
    machine.send({ kind: "layer", name: layer.name, changes: { label } });
    input.value = label;
  };
  return field("called", input);
}

/** @param {Page.Runner} machine @param {Machine.Layer} layer */
function functionField(machine, { name, shows }) {
  const isKnown = FUNCTIONS.some((one) => one.name === shows);
  const choice = element("select", { id: "layer-function" }, ...isKnown ? [] : [element("option", { value: "", selected: true }, "not known")],
    ...FUNCTIONS.map((one) => element("option", { value: one.name, selected: one.name === shows }, one.label)).reverse());
  choice.onchange = () => choice.value && machine.send({ kind: "function", name, shows: choice.value });
  return field("shows", choice);
}

// The layer goes up in the pile, so that it covers more, or down.
/** @param {Page.Runner} machine @param {number} by @param {string} name */
export const raise = (machine, by, name = machine.state.active ?? "") => machine.send({ kind: "raise", name, by });

/** @param {Page.Runner} machine @param {Machine.State} state */
function show(machine, state) {
  const layer = layerOf(state, state.active);
  byId("layer-panel").hidden = layer === null;
  if (!layer) return;
  const at = state.layers.indexOf(layer), { name, label } = layer, last = state.layers.length - 1;
  redraw(byId("layer-settings"), nameField(machine, layer), functionField(machine, layer), element("p", { className: "buttons" },
    button("up", () => raise(machine, 1, name), { id: "layer-up", disabled: at === last, "aria-label": `${label} up in the pile` }),
    button("down", () => raise(machine, -1, name), { id: "layer-down", disabled: at === 0, "aria-label": `${label} down in the pile` }),
    button("move, turn ..", () => machine.gesture({ kind: "whole", name }), { id: "layer-move", "aria-label": `move, turn or mirror ${label}` }),
    button("close layer", () => machine.gesture({ kind: "close", name }), { id: "layer-close", "aria-label": `close layer ${label}` })));
}

/** @param {Page.Runner} machine @param {Page.View} view */
export function listenToLayerSettings(machine, view) {
  // The pictures of layers that are closed.
  /** @type {Machine.Layer[]} */
  let before = [];
  machine.panel(({ layers }) => [layers], ({ layers }) => {
    for (const { name } of before) if (!layers.some((layer) => layer.name === name)) view.forget(name);
    before = layers;
  });
  machine.panel((state) => {
    const layer = layerOf(state, state.active);
    return [state.active, layer?.label, layer?.shows, layer && state.layers.indexOf(layer), state.layers.length];
  }, (state) => show(machine, state));
}

// The list of layers, the topmost first: shown or not, alone, colour, opacity, and which one insertions go to.

import { button, byId, element, redraw } from "./dom.js";
import { listenToGroupBoxes } from "./layer_groups.js";
import { losses } from "../machine/index.js";
import { plural } from "../board/index.js";

/** @param {Page.Runner} machine @param {Machine.Layer} layer @param {string | null} active */
function row(machine, layer, active) {
  const { name, label, items } = layer, isActive = name === active;
  const shown = element("input", { type: "checkbox", checked: layer.isShown, title: "shown", "aria-label": `${label} is shown` });
  shown.onchange = () => machine.send({ kind: "show", name, isShown: shown.checked });
  const colour = element("input", { type: "color", value: layer.colour, title: "its colour",
    "aria-label": `colour of ${label}` });
  colour.oninput = () => machine.send({ kind: "layer", name, changes: { colour: colour.value } });
  const opacity = element("input", { type: "range", min: 10, max: 100, value: Math.round(layer.opacity * 100),
    title: "how opaque", "aria-label": `how opaque ${label} is` });
  opacity.oninput = () => machine.send({ kind: "layer", name, changes: { opacity: Number(opacity.value) / 100 } });
  const choose = button("", () => machine.gesture({ kind: "choose", name }), { className: "name",
    title: `${name}: ${plural(items, "item")}, ${layer.origin ?? layer.file ?? ""}`, "aria-pressed": String(isActive) });
  choose.append(element("b", {}, ...breakable(label)), element("small", {}, ` ${items.toLocaleString("en")}`));
  const only = button("only", () => machine.send({ kind: "only", name }), { className: "only", title: "show this layer alone",
    "aria-label": `show only ${label}` });
  return element("li", { className: isActive ? "active" : "", "data-row": name }, element("label", { className: "target" }, shown),
    colour, choose, opacity, only);
}

// A name of several words may be wrapped between them, and the long name of a file where one of its parts ends: never within a word.
/** @param {string} label */
const breakable = (label) => label.split(/(?<=[-_.,/])(?=\S)/).flatMap((part, at) => (at ? [element("wbr"), part] : [part]));

// The next layer up or down becomes the active one.
/** @param {Page.Runner} machine @param {number} by */
export function activeBy(machine, by) {
  const { layers, active } = machine.state, at = layers.findIndex((layer) => layer.name === active);
  const next = layers[(at + by + layers.length) % layers.length];
  if (next) machine.gesture({ kind: "choose", name: next.name });
}

/** @param {Page.Runner} machine */
export function listenToLayers(machine) {
  listenToGroupBoxes(machine);
  // The list is as it is while a colour or an opacity of it is being chosen.
  /** @param {Machine.State} state */
  const words = ({ layers }) =>
    layers.map(({ name, label, items, isShown }) => `${name} ${items} ${isShown} ${label}`).join("\n");
  machine.panel((state) => [words(state), state.active], ({ layers, active }) => {
    redraw(byId("layers"), ...layers.map((layer) => row(machine, layer, active)).reverse());
    byId("no-layers").hidden = layers.length > 0;
  });
  // What the station's text of a layer has not of its file, told before it is saved.
  machine.panel((state) => [state.dropped, words(state)], (state) => {
    const lost = losses(state, state.layers);
    byId("dropped-panel").hidden = lost.length === 0;
    byId("dropped-count").textContent = `attributes and comments of ${plural(lost.length, "layer")}`;
    byId("dropped").replaceChildren(...lost.reverse().map(({ label, words: told }) =>
      element("li", {}, element("b", {}, label), ` ${told.join(", ")}`)));
  });
}

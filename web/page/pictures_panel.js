// Pictures beside the layers, as PBM files that were plotted elsewhere; and the choice of any two layers or pictures to be
// compared.

import { button, byId, element, redraw } from "./dom.js";
import { choices } from "../machine/index.js";

// What a person chose to be compared.
/** @type {Record<string, string | null>} */
const chosen = { first: null, second: null };

/** @param {Page.Runner} machine @param {Machine.Picture} picture */
function row(machine, picture) {
  const { name, label } = picture;
  const shown = element("input", { type: "checkbox", checked: picture.isShown, "aria-label": `${label} is shown` });
  shown.onchange = () => machine.send({ kind: "picture", name, changes: { isShown: shown.checked } });
  const colour = element("input", { type: "color", value: picture.colour, "aria-label": `colour of ${label}` });
  colour.oninput = () => machine.send({ kind: "picture", name, changes: { colour: colour.value } });
  return element("li", { "data-row": name }, element("label", { className: "target" }, shown), colour, element("span", { title: picture.window }, label),
    button("close", () => machine.send({ kind: "close", name }), { className: "only", "aria-label": `close ${label}` }));
}

/** @param {Machine.State} state */
function listChoices(state) {
  const found = choices(state), [picture] = state.opened;
  const first = picture?.of ?? state.active ?? found[0]?.name;
  const proposed = [first, picture?.name ?? found.find(({ name }) => name !== first)?.name];
  /** @type {const} */ (["first", "second"]).forEach((id, at) => {
    byId(id).replaceChildren(...found.map(({ name, label }) => element("option", { value: name }, label)));
    const own = chosen[id];
    byId(id).value = own && found.some(({ name }) => name === own) ? own : proposed[at] ?? "";
  });
  byId("two-panel").hidden = found.length < 2;
}

/** @param {Page.Runner} machine @param {string[]} names */
export const compareChosen = (machine, names = [byId("first").value, byId("second").value]) =>
  machine.gesture({ kind: "compareTwo", names });

/** @param {Page.Runner} machine @param {Page.View} view */
export function listenToPictures(machine, view) {
  /** @param {Machine.State} state */
  const words = ({ opened }) => opened.map(({ name, isShown }) => `${name} ${isShown}`).join("\n");
  /** @param {Machine.State} state */
  const labels = ({ layers }) => layers.map(({ name, label }) => `${name} ${label}`).join("\n");
  machine.panel((state) => [words(state)],
    ({ opened }) => redraw(byId("opened"), ...opened.map((each) => row(machine, each))));
  machine.panel((state) => [words(state), labels(state), state.active], listChoices);
  /** @type {Machine.Picture[]} */
  let before = [];
  machine.panel(({ opened }) => [opened], ({ opened }) => {
    for (const { name } of before) if (!opened.some((picture) => picture.name === name)) view.forget(name);
    before = opened;
  });
  for (const id of /** @type {const} */ (["first", "second"])) byId(id).onchange = () => { chosen[id] = byId(id).value; };
  byId("compare-two").onclick = () => compareChosen(machine);
}

// How the page looks: dark or light, the grid, the unit of lengths, and what is kept of it.

import { allOf, byId, element } from "./dom.js";
import { UNITS, lengthIn, lengthText } from "../board/index.js";
import { looksOfState } from "../machine/index.js";

const LIGHT = matchMedia("(prefers-color-scheme: light)");

const isLight = () => document.documentElement.dataset.look === "light";

// The look that a person chose; `""` where none was.
const chosen = () => document.documentElement.dataset.chosen ?? "";

/** @param {string} look @param {Page.View} view */
function showLook(look, view) {
  document.documentElement.dataset.look = look;
  view.change();
}

// A look that a person chose stays, whatever the system's is; of `""` none was chosen.
/** @param {string} look @param {Page.View} view */
export function setLook(look, view) {
  document.documentElement.dataset.chosen = look;
  showLook(look || (LIGHT.matches ? "light" : "dark"), view);
}

/** @param {Page.View} view */
export const changeLook = (view) => setLook(isLight() ? "dark" : "light", view);

// What is kept beside the journal.
/** @param {Machine.State} state @param {Page.View} view @returns {Machine.Looks} */
export function looksNow(state, view) {
  return {
    look: chosen(), ...looksOfState(state),
    view: view.seen, bytes: Object.values(state.files).reduce((sum, { bytes }) => sum + bytes.length, 0),
  };
}

// The unit of all lengths that are shown and typed. A length that stands in a field of the page is written in the other unit.
/** @param {Page.Runner} machine @param {Page.View} view */
function listenToUnit(machine, view) {
  const choice = byId("unit");
  let shown = "mm";
  choice.replaceChildren(...Object.entries(UNITS).map(([value, { label }]) => element("option", { value }, label)));
  choice.onchange = () => machine.send({ kind: "setting", changes: { unit: choice.value } });
  machine.panel(({ unit }) => [unit], ({ unit }) => {
    choice.value = unit;
    for (const words of document.querySelectorAll("[data-unit]")) words.textContent = unit;
    for (const field of allOf("[data-length]", HTMLInputElement)) {
      field.setAttribute("aria-label", `${field.dataset.length} in ${unit}`);
      const nm = field.id === "grid" ? null : lengthIn(field.value, shown);
      if (nm !== null) field.value = lengthText(nm, unit);
    }
    shown = unit;
    view.paint();
  });
}

// The next unit in turn.
/** @param {Page.Runner} machine */
export function changeUnit(machine) {
  const names = Object.keys(UNITS), next = names[(names.indexOf(machine.state.unit) + 1) % names.length];
  if (next) machine.send({ kind: "setting", changes: { unit: next } });
}

/** @param {Page.Runner} machine @param {Page.View} view */
export function listenToLooks(machine, view) {
  setLook("", view);
  LIGHT.onchange = () => setLook(chosen(), view);
  byId("grid").onchange = () => {
    const { unit } = machine.state, grid = lengthIn(byId("grid").value, unit);
    if (grid !== null && grid >= 1) machine.send({ kind: "setting", changes: { grid } });
    byId("grid").value = lengthText(machine.state.grid, unit);
  };
  machine.panel(({ grid, unit }) => [grid, unit], ({ grid, unit }) => { byId("grid").value = lengthText(grid, unit); });
  listenToUnit(machine, view);
  const settings = /** @type {const} */ ([["new-polarity", "polarity"], ["new-turn", "turn"], ["new-direction", "direction"]]);
  for (const [id, key] of settings) {
    byId(id).onchange = () => machine.send({ kind: "setting", changes: { [key]: byId(id).value } });
    machine.panel((state) => [state[key]], (state) => { byId(id).value = state[key]; });
  }
}

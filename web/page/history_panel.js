// The list of what can be undone and redone, in words; and what a comparison has found, with the way to where it differs
// and back to the layers.

import { button, byId, element, oneOf, redraw } from "./dom.js";
import { FOUND, layerOf } from "../machine/index.js";
import { plural, wordsIn } from "../board/index.js";

// So many steps are listed: the list is drawn anew with each edit.
const SHOWN = 200;
// How far around the place of a join or a cut the board is shown, in nm: some pads beside it.
const NEAR = 1_000_000;

// Where a step joined or cut nets: its mark, which leads to the place.
/** @param {Page.Runner} machine @param {Machine.NetChange | undefined} change @param {string[] | undefined} shown */
function markOf(machine, change, shown) {
  if (!change) return [];
  const { kind, words, places: [first] } = change;
  const lead = () => first && machine.send({ kind: "lead", name: shown?.[first.place.layer] ?? null,
    box: { left: first.place.x - NEAR, low: first.place.y - NEAR, right: first.place.x + NEAR, high: first.place.y + NEAR } });
  return [button(kind, lead, { className: "only nets-mark", title: words, "aria-label": `${words}: show where` })];
}

/** @param {Page.Runner} machine @param {Machine.State} state */
function list(machine, { steps: { done, undone, group }, nets, unit }) {
  const made = done.slice(-SHOWN).map(({ words: told, at: step }, at, all) => {
    const back = all.length - at, words = wordsIn(told, unit);
    return element("li", { "data-row": step.length }, element("span", {}, words), ...markOf(machine, nets.marks.get(step), nets.about?.shown),
      button("compare", () => machine.gesture({ kind: "compare", back }),
        { className: "only", title: "compare the board with what it was before this", "aria-label": `compare with before: ${words}` }));
  });
  const taken = undone.slice().reverse().map(({ words }) => element("li", { className: "undone" }, wordsIn(words, unit)));
  redraw(byId("history"), ...made, ...taken);
  byId("history-count").textContent = group ? `a group is open, ${plural(group.length, "edit")}`
    : `${done.length} to undo, ${undone.length} to redo`;
  oneOf("[data-act=undo]", HTMLButtonElement).disabled = done.length === 0 || group !== null;
  oneOf("[data-act=redo]", HTMLButtonElement).disabled = undone.length === 0 || group !== null;
}

// The layers that differ: each leads there.
/** @param {Page.Runner} machine @param {Machine.State} state @param {Machine.Comparison["differing"]} differing */
function differingRow(machine, state, differing) {
  return element("li", {}, ...differing.map(({ name, box }) => button(layerOf(state, name)?.label ?? name,
    () => machine.send({ kind: "lead", name, box }), { className: "only", "aria-label": `show where ${name} differs` })));
}

/** @param {Page.Runner} machine @param {Machine.State} state */
function showCompared(machine, state) {
  const { comparison } = state;
  byId("compared").hidden = comparison === null;
  if (!comparison) return;
  const { title, said, counts, pixels, view, differing, box } = comparison;
  const rows = counts.map(({ colour, words }) => {
    const mark = element("i", {});
    mark.style.background = colour;
    return element("li", {}, mark, words);
  });
  redraw(byId("compared-counts"), ...pixels ? [element("li", {}, pixels)] : [], ...rows, ...view ? [element("li", {}, view)] : [],
    element("li", { className: "said" }, said), ...differing.length ? [differingRow(machine, state, differing)] : []);
  byId("compared-title").textContent = title;
  byId("compared-where").hidden = !box;
  byId("compared-where").onclick = () => machine.send({ kind: "lead", name: null, box });
}

/** @param {Page.Runner} machine @param {Page.View} view */
export function listenToHistory(machine, view) {
  machine.panel(({ steps, nets, unit }) => [steps.done, steps.undone, steps.group, nets.marks, unit], (state) => list(machine, state));
  machine.panel(({ comparison }) => [comparison], (state) => {
    showCompared(machine, state);
    if (!state.comparison) FOUND.forEach((name) => view.forget(name));
  });
  byId("compared-leave").onclick = () => machine.send({ kind: "leave" });
}

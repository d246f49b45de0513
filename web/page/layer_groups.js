// The pile in groups: copper, mask, silkscreen, paste, holes, drawings. Each is shown or hidden at once, by its box above the list or by
// its command.

import { act } from "./actions.js";
import { byId, element, redraw } from "./dom.js";
import { noLayer } from "./reasons.js";

/** @type {[id: string, words: string, pattern: RegExp][]} */
const GROUPS = [
  ["copper", "copper", /^(?:top|bottom|in\d+)$/], ["mask", "mask", /-mask$/], ["silkscreen", "silkscreen", /-silk$/], ["paste", "paste, glue", /-(?:paste|glue)$/],
  ["holes", "holes", /^(?:holes|plated|nonplated)$/], ["drawings", "outline, drawings", /./],
];

/** @param {Machine.Layer} layer */
const groupOf = ({ shows = "other" }) => GROUPS.find(([, , pattern]) => pattern.test(shows))?.[0] ?? "drawings";

/** @param {Machine.State} state @param {string} group */
const layersOf = ({ layers }, group) => layers.filter((layer) => groupOf(layer) === group);

// All layers of a group are shown, or none where all of them are.
/** @param {Page.Runner} machine @param {string} group */
function switchGroup(machine, group) {
  const layers = layersOf(machine.state, group), isShown = !layers.every((layer) => layer.isShown);
  for (const { name } of layers) machine.send({ kind: "show", name, isShown });
}

/** @param {Page.Parts} page */
export function nameGroups({ machine }) {
  for (const [id, words] of GROUPS) {
    act(`group-${id}`, "View", `Show or hide all of ${words}`, [], () => switchGroup(machine, id),
      (state) => noLayer(state) ?? (layersOf(state, id).length ? null : `No layer of ${words} is open.`));
  }
}

// A box of each group that is open, above the list; it is half on where only some layers of the group are shown.
/** @param {Page.Runner} machine */
export function listenToGroupBoxes(machine) {
  const list = element("div", { id: "layer-groups", role: "group", "aria-label": "Groups of layers" });
  byId("layers").before(list);
  /** @param {Machine.State} state */
  const counted = (state) => GROUPS.map(([id, words]) => {
    const layers = layersOf(state, id);
    return { id, words, count: layers.length, shown: layers.filter(({ isShown }) => isShown).length };
  });
  machine.panel((state) => counted(state).flatMap(({ count, shown }) => [count, shown]), (state) => redraw(list, ...counted(state).flatMap(({ id, words, count, shown }) => {
    const title = `${shown} of ${count} shown`;
    const box = element("input", { type: "checkbox", checked: shown === count, indeterminate: shown > 0 && shown < count, "aria-label": `all of ${words} shown` });
    box.onchange = () => switchGroup(machine, id);
    return count ? [element("label", { className: "target", "data-row": id, title }, box, ` ${words}`)] : [];
  })));
}

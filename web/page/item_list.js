// The items of the active layer with their places, some at a time, and the search for a place.

import { button, byId, element, redraw } from "./dom.js";
import { layerOf } from "../machine/index.js";
import { wholeOf } from "../board/index.js";

// As many as the worker lists at once (web/station/asking.js).
const PAGE = 100;

/** @param {Page.Runner} machine @param {Machine.State} state */
function show(machine, state) {
  const { list, active } = state, layer = layerOf(state, active);
  if (!list.isOpen || active === null || !layer || list.name !== active) return byId("items").replaceChildren();
  const picked = new Set(state.picked.filter((item) => item.name === active).map((item) => item.place));
  byId("items").start = list.from;
  redraw(byId("items"), ...list.words.map((text, at) => {
    const place = list.from + at;
    const row = button("", () => choose(machine, active, place), { "aria-pressed": String(picked.has(place)) });
    row.append(element("b", {}, `${place} `), text.length > 90 ? `${text.slice(0, 90)} ..` : text);
    return element("li", { className: picked.has(place) ? "on" : "", "data-row": place }, row);
  }));
  const last = Math.min(list.from + PAGE, layer.items) - 1;
  byId("items-range").textContent = layer.items ? `${list.from} to ${last} of ${layer.items}` : "none";
  return undefined;
}

/** @param {Page.Runner} machine @param {string} name @param {number} place */
const choose = (machine, name, place) =>
  machine.gesture({ kind: "picks", places: [{ name, place }], isShown: true, isLed: true });

/** @param {Page.Runner} machine */
export function listenToItemList(machine) {
  byId("items-panel").ontoggle = () => machine.gesture({ kind: "list", isOpen: byId("items-panel").open });
  byId("items-back").onclick = () => machine.gesture({ kind: "list", by: -PAGE });
  byId("items-on").onclick = () => machine.gesture({ kind: "list", by: PAGE });
  byId("search").onsubmit = (event) => {
    event.preventDefault();
    const place = wholeOf(byId("search-place").value), { active } = machine.state;
    if (place === null || !active) return machine.send({ kind: "say", text: "A place is a whole number from 0.", isFault: true });
    machine.gesture({ kind: "list", from: place });
    return choose(machine, active, place);
  };
  machine.panel((state) => [state.list, state.active, state.picked, layerOf(state, state.active)?.items],
    (state) => show(machine, state));
}

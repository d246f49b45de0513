// The script at the foot: its lines with their replies, and the line that a person types.

import { byId, element } from "./dom.js";
import { short } from "../board/index.js";

// So many lines are kept on the page, and letters of each: the whole script is saved, and this is its end.
const SHOWN = 400, MOST_LETTERS = 2000;

/** @param {Machine.Told} entry */
const row = ({ line, reply }) => element("li", { className: reply.startsWith("refused") ? "refused" : "" },
  element("code", {}, short(line, MOST_LETTERS)), element("span", {}, reply));

// The lines that are shown already stay as they are.
/** @param {HTMLElement} list @param {Machine.Told[]} before @param {Machine.Told[]} told */
function show(list, before, told) {
  const isLonger = before.length <= told.length && before.length > 0 && before[before.length - 1] === told[before.length - 1];
  const fresh = (isLonger ? told.slice(before.length) : told).slice(-SHOWN).map(row);
  if (isLonger) list.append(...fresh);
  else list.replaceChildren(...fresh);
  while (list.children.length > SHOWN) list.firstElementChild?.remove();
  list.scrollTop = list.scrollHeight;
}

/** @param {Page.Runner} machine @param {Page.View} view */
export function listenToScript(machine, view) {
  /** @type {Machine.Told[]} */
  let before = [];
  machine.panel(({ told }) => [told], ({ told }) => {
    show(byId("script"), before, told);
    before = told;
  });
  /** @type {string[]} */
  const earlier = [];
  const input = byId("line");
  let at = 0;
  byId("type").onsubmit = (event) => {
    event.preventDefault();
    const line = input.value.trim();
    if (!line) return;
    earlier.push(line);
    at = earlier.length;
    input.value = "";
    machine.gesture({ kind: "lines", lines: [line], window: view.window() });
  };
  input.onkeydown = (event) => {
    if (event.key !== "ArrowUp" && event.key !== "ArrowDown") return;
    event.preventDefault();
    at = Math.max(0, Math.min(earlier.length, at + (event.key === "ArrowUp" ? -1 : 1)));
    input.value = earlier[at] ?? "";
  };
}

// The list of all commands by their names: it is filtered while one types, Enter runs the one that is marked, Escape closes it.

import { actions, groupAt, keyWords } from "./actions.js";
import { byId, element, redraw } from "./dom.js";
import { iconOf } from "./icons.js";

// Commands that lead to commands.
const HERE = ["palette", "panel-commands"];

/** @param {Page.Action} action */
const wordsOf = ({ group, label, word, keys }) => `${label} ${word} ${group} ${keys.map(keyWords).join(" ")}`.toLowerCase();

// How well a command fits what was typed: the lower the better, null where a word of it is nowhere in it.
/** @param {Page.Action} action @param {string} typed */
function fitOf(action, typed) {
  const all = wordsOf(action), parts = typed.split(/\s+/).filter((part) => part);
  if (!parts.every((part) => all.includes(part))) return null;
  const names = [action.word, action.label].map((name) => name.toLowerCase());
  if (names.some((name) => name === typed)) return 0;
  if (names.some((name) => name.startsWith(typed))) return 1;
  return all.split(/[^a-z0-9]+/).some((word) => word.startsWith(parts[0] ?? "")) ? 2 : 3;
}

// The commands that fit what was typed, the best first, and else by their groups and as they stand in the table.
/** @param {Page.Action[]} all @param {string} typed */
export function fitting(all, typed) {
  const words = typed.trim().toLowerCase();
  return all.flatMap((action) => {
    const fit = words ? fitOf(action, words) : 0;
    return fit === null ? [] : [{ action, fit }];
  }).sort((one, other) => one.fit - other.fit || groupAt(one.action) - groupAt(other.action)).map(({ action }) => action);
}

export class Palette {
  /** @param {Page.Runner} machine */
  constructor(machine) {
    this.machine = machine;
    /** @type {Page.Action[]} */
    this.found = [];
    this.at = 0;
    const field = byId("palette-words"), dialog = byId("palette");
    field.oninput = () => this.show();
    field.onkeydown = (event) => this.key(event);
    // (where nothing had the focus before, keys are the board's again)
    dialog.onclose = () => { if (dialog.contains(document.activeElement)) byId("marks").focus({ preventScroll: true }); };
    dialog.onclick = (event) => { if (event.target === dialog) dialog.close(); };
  }

  open() {
    byId("palette-words").value = "";
    this.show();
    byId("palette").showModal();
    byId("palette-words").focus();
    byId("palette-list").scrollTop = 0;
  }

  // Draws what fits; the first of it is marked.
  show() {
    this.found = fitting(actions.filter(({ id }) => !HERE.includes(id)), byId("palette-words").value);
    redraw(byId("palette-list"), ...this.found.length ? this.found.map((action, at) => this.row(action, at))
      : [element("li", { className: "hint" }, "No command has these words.")]);
    this.mark(0);
  }

  /** @param {Page.Action} action @param {number} at */
  row(action, at) {
    const { id, group, label, keys } = action, why = action.why?.(this.machine.state) ?? null;
    const row = element("li", { id: `palette-${at}`, role: "option", "aria-disabled": String(why !== null), "data-command": id, title: why ?? "" });
    row.append(iconOf(id) ?? element("span", { className: "icon" }), element("span", { className: "label" }, label,
      element("small", {}, why ?? group)), ...keys.slice(0, 2).map((key) => element("kbd", {}, keyWords(key))));
    row.onclick = (event) => this.run(action, event);
    row.onpointermove = () => { if (this.at !== at) this.mark(at); };
    return row;
  }

  /** @param {number} at */
  mark(at) {
    const rows = byId("palette-list").querySelectorAll("[role=option]"), row = rows[at];
    this.at = at;
    rows.forEach((other, place) => other.setAttribute("aria-selected", String(place === at)));
    row?.scrollIntoView({ block: "nearest" });
    if (row) byId("palette-words").setAttribute("aria-activedescendant", row.id);
    else byId("palette-words").removeAttribute("aria-activedescendant");
  }

  /** @param {KeyboardEvent} event */
  key(event) {
    const { found, at } = this, last = found.length - 1, marked = found[at];
    const to = { ArrowDown: at < last ? at + 1 : 0, ArrowUp: at > 0 ? at - 1 : last, PageDown: Math.min(last, at + 8), PageUp: Math.max(0, at - 8) }[event.key];
    if (to !== undefined && found.length) this.mark(to);
    else if (event.key === "Enter" && !event.isComposing && marked) this.run(marked, event);
    else return;
    event.preventDefault();
  }

  // Runs a command, or says why it cannot be done now.
  /** @param {Page.Action} action @param {MouseEvent | KeyboardEvent} event */
  run(action, event) {
    const why = action.why?.(this.machine.state);
    byId("palette").close();
    if (why) this.machine.send({ kind: "say", text: why, isFault: true });
    else action.run(event);
  }
}

// Finding what is typed: nets, components, pins, apertures, tools, attributes and places, grouped by kind. The worker has the index,
// which it makes anew after edits while this is open.

import { byId, element } from "./dom.js";
import { isOpening, tellingOf } from "../machine/index.js";
import { plural } from "../board/index.js";

// So many results are shown, each kind with its share.
const MOST = 60;

/** @type {Record<string, string>} */
const GROUPS = { place: "place", net: "nets", component: "components", pin: "pins", aperture: "apertures", tool: "tools", attribute: "attributes" };

export class FindPanel {
  /** @param {Page.Parts} page @param {import("./telling.js").Telling} telling */
  constructor({ machine, going }, telling) {
    this.machine = machine;
    this.going = going;
    this.telling = telling;
    this.panel = byId("find");
    this.input = byId("find-text");
    /** @type {Machine.FoundResult[]} */
    this.results = [];
    this.chosen = -1;
    this.query = "";
    // Whether an answer is on its way, whether another one is wanted after it, and whether Enter was pressed before it came.
    this.isAsked = this.isWanted = this.isEntered = false;
    this.listen();
    machine.panel((state) => [state.told, state.unit, JSON.stringify(tellingOf(state).layers), state.station.isOpen, isOpening(state)], () => this.ask());
    machine.panel(({ lit }) => [lit], () => this.mark());
  }

  listen() {
    const { panel, input } = this;
    input.oninput = () => {
      panel.classList.remove("went");
      this.isEntered = false;
      this.ask();
    };
    // (the field keeps the focus while a result is clicked)
    byId("find-results").onmousedown = (event) => event.preventDefault();
    byId("find-close").onclick = () => this.close();
    panel.onkeydown = (event) => this.key(event);
    // (Escape closes it wherever the focus is, and lets go of nothing else)
    document.addEventListener("keydown", (event) => {
      if (panel.hidden || event.key !== "Escape" || document.querySelector("dialog[open]")) return;
      event.preventDefault();
      event.stopImmediatePropagation();
      this.close();
    }, true);
  }

  open() {
    this.panel.hidden = false;
    this.panel.classList.remove("went");
    this.input.focus({ preventScroll: true });
    this.input.select();
    this.ask();
  }

  close() {
    const hadFocus = this.panel.contains(document.activeElement);
    this.panel.hidden = true;
    if (hadFocus) byId("marks").focus({ preventScroll: true });
  }

  /** @param {KeyboardEvent} event */
  key(event) {
    const to = { ArrowDown: this.chosen + 1, ArrowUp: this.chosen - 1 }[event.key], { length } = this.results;
    event.stopPropagation();
    if (event.ctrlKey && event.key.toLowerCase() === "f") {
      event.preventDefault();
      this.input.select();
    } else if (to !== undefined && length) {
      event.preventDefault();
      this.panel.classList.remove("went");
      this.choose((to + length) % length);
    } else if (event.key === "Enter" && event.target === this.input && !event.isComposing) {
      event.preventDefault();
      if (this.isAsked) this.isEntered = true;
      else this.go(this.chosen);
    }
  }

  // Asks what the text finds: once more behind an answer that is on its way, so that no more than one is.
  ask() {
    if (this.panel.hidden) return;
    this.isWanted = true;
    if (!this.isAsked) this.machine.await(this.asking());
  }

  async asking() {
    const { machine, panel, input, telling } = this;
    this.isAsked = true;
    while (this.isWanted && !panel.hidden) {
      this.isWanted = false;
      if (!this.results.length) this.say(machine.state.layers.length ? "reading the board .." : "No layer is open.");
      /** @type {Machine.Answer<Machine.Finds> | null} */
      const answer = await telling.ask("find", { query: input.value, most: MOST });
      if (answer?.found) this.show(answer.found);
      else if (answer?.why) this.say(`The files can't be read for that: ${answer.why}`);
    }
    this.isAsked = false;
    if (this.isEntered) this.go(this.chosen);
    this.isEntered = false;
  }

  /** @param {string} words */
  say(words) {
    byId("find-said").textContent = words;
  }

  /** @param {Machine.Finds} finds */
  show({ query, count, shown, groups }) {
    // (the one that was chosen stays so where the board has changed, and not the text)
    const before = query === this.query ? this.results[this.chosen] : null;
    this.query = query;
    this.results = groups.flatMap(({ results }) => results);
    let at = 0;
    byId("find-results").replaceChildren(...groups.map(({ kind, count: all, results }) => {
      const more = results.length < all ? `${results.length} of ${all.toLocaleString("en")}` : String(all), title = `${GROUPS[kind] ?? kind}: ${more}`;
      return element("div", { role: "group", "aria-label": title }, element("h3", { "aria-hidden": "true" }, title), ...results.map((result) => this.row(result, at++)));
    }));
    const isTyped = query.trim() !== "";
    this.say(!isTyped ? "Type a net, a component, a pin, an aperture, a tool, an attribute, or a place as x, y." : count === 0 ? "Nothing has that."
      : shown < count ? `${count.toLocaleString("en")} found, ${shown} shown` : `${count.toLocaleString("en")} found`);
    const same = before ? this.results.findIndex(({ kind, id }) => kind === before.kind && id === before.id) : -1;
    this.choose(same >= 0 ? same : this.results.length ? 0 : -1);
    this.mark();
  }

  /** @param {Machine.FoundResult} result @param {number} at */
  row({ kind, text, detail, items }, at) {
    const count = kind === "place" ? [] : [element("small", { className: "count" }, plural(items, "item"))];
    return element("div", { role: "option", id: `found-${at}`, onclick: () => this.go(at), title: detail ? `${text}, ${detail}` : text },
      element("span", {}, element("b", {}, text), ...detail ? [" ", element("small", {}, detail)] : []), ...count);
  }

  /** @param {number} at */
  choose(at) {
    this.chosen = at;
    const rows = byId("find-results").querySelectorAll("[role=option]"), row = rows[at];
    rows.forEach((other, place) => other.setAttribute("aria-selected", String(place === at)));
    row?.scrollIntoView({ block: "nearest" });
    this.input.setAttribute("aria-expanded", String(this.results.length > 0));
    if (row) this.input.setAttribute("aria-activedescendant", row.id);
    else this.input.removeAttribute("aria-activedescendant");
  }

  // The one that is lit.
  mark() {
    const { lit } = this.machine.state;
    byId("find-results").querySelectorAll("[role=option]").forEach((row, at) =>
      row.classList.toggle("lit", lit !== null && this.results[at]?.kind === lit.of.kind && this.results[at]?.id === lit.of.id));
  }

  // Goes to a result, and lights it.
  /** @param {number} at */
  go(at) {
    const result = this.results[at];
    if (!result) return;
    this.choose(at);
    this.panel.classList.add("went");
    if (result.kind === "place") this.going.to({ x: result.place[0], y: result.place[1] });
    else this.telling.light({ kind: result.kind, id: result.id, text: result.text }, true);
  }
}

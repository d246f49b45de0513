// About this board: what its files and its job file say of it, as a table and as text to copy.

import { byId, element } from "./dom.js";

export class AboutPanel {
  /** @param {Page.Parts} page @param {import("./telling.js").Telling} telling */
  constructor({ machine }, telling) {
    this.machine = machine;
    this.telling = telling;
    this.text = "";
    byId("about-copy").onclick = () => this.copy();
  }

  async open() {
    const { machine, machine: { state } } = this, dialog = byId("about");
    if (!state.layers.length) return machine.send({ kind: "say", text: "No layer is open.", isFault: true });
    this.show([], "reading the board ..");
    dialog.showModal();
    /** @type {Machine.Answer<{ rows: [name: string, value: string][], text: string }> | null} */
    const answer = await this.telling.ask("about", { job: state.job, fileNames: namesOf(state) });
    if (answer?.found) this.show(answer.found.rows, "", answer.found.text);
    else this.show([], answer?.why ? `The files can't be read for that: ${answer.why}` : "The board is not open yet: close this, and ask again.");
    return undefined;
  }

  /** @param {[name: string, value: string][]} rows @param {string} words @param {string} text */
  show(rows, words, text = "") {
    this.text = text;
    byId("about-body").replaceChildren(element("tbody", {}, ...rows.map(([name, value]) =>
      element("tr", {}, element("th", { scope: "row" }, name), element("td", {}, value)))));
    byId("about-said").textContent = words;
    byId("about-copy").toggleAttribute("disabled", !text);
    // (the button that closes it has the focus, and stands at its end)
    byId("about").scrollTop = 0;
  }

  async copy() {
    try {
      await navigator.clipboard.writeText(this.text);
      byId("about-said").textContent = "It is copied.";
    } catch {
      byId("about-said").textContent = "The browser copies nothing here: pick the text of the table instead.";
    }
  }
}

// The names of all files that were opened, those of no layer too.
/** @param {Machine.State} state */
const namesOf = ({ files }) => Object.values(files).map(({ name }) => name);

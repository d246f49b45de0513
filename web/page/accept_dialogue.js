// The question when a finding is accepted: why, and who accepts it.

import { button, element, field } from "./dom.js";

export class AcceptDialogue {
  /** @param {(finding: import("../nets/index.js").Finding, reason: string, by: string) => string | null} accept why it is not accepted */
  constructor(accept) {
    this.accept = accept;
    /** @type {import("../nets/index.js").Finding | null} */
    this.finding = null;
    this.what = element("p", { className: "words" });
    this.reason = element("input", { type: "text", id: "accept-reason", autocomplete: "off" });
    this.by = element("input", { type: "text", id: "accept-by", autocomplete: "off" });
    this.why = element("p", { className: "fault", role: "status" });
    const leave = button("leave it", () => this.dialogue.close());
    const form = element("form", { onsubmit: (/** @type {Event} */ event) => this.answered(event) }, element("h2", { id: "accept-title" }, "Accept a finding"), this.what,
      field("reason", this.reason), field("name", this.by), this.why,
      element("p", { className: "buttons" }, element("button", { type: "submit" }, "accept"), leave));
    /** @type {HTMLDialogElement} */
    this.dialogue = element("dialog", { id: "accept", "aria-labelledby": "accept-title" }, form);
    document.body.append(this.dialogue);
  }

  /** @param {import("../nets/index.js").Finding} finding @param {string} by who accepted the last one */
  ask(finding, by) {
    this.finding = finding;
    this.what.textContent = finding.lines[0] ?? "";
    this.reason.value = "";
    this.by.value = by;
    this.why.textContent = "";
    this.dialogue.showModal();
    this.reason.focus();
  }

  /** @param {Event} event */
  answered(event) {
    event.preventDefault();
    const why = this.finding && this.accept(this.finding, this.reason.value, this.by.value);
    this.why.textContent = why ?? "";
    if (why === null) this.dialogue.close();
  }
}

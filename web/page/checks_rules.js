// Which limits the check of rules has: those of a file that is chosen or dropped, and each by itself.

import { RULES, mm, readRules, takeRule } from "../nets/index.js";
import { RULE_FILES } from "./rule_files.js";
import { element, redraw } from "./dom.js";
import { latin1 } from "../bytes/index.js";

// No file of rules is longer; and a line of one has a rule's name first.
const MOST_BYTES = 65_536;

// Whether a file is one of rules: its first line that is no comment begins with a rule.
/** @param {Uint8Array} bytes */
export function isRulesFile(bytes) {
  if (bytes.length > MOST_BYTES) return false;
  const first = latin1(bytes).split(/\r\n|\r|\n/).map((line) => (line.split("#")[0] ?? "").trim()).find((line) => line !== "");
  return first !== undefined && RULES.has(first.split(/[ \t=]+/)[0] ?? "");
}

// What a file of rules says, or why it is refused.
/** @param {string} name @param {Uint8Array} bytes @returns {{ name: string, limits: [string, number][], why: string | null }} */
export function rulesOf(name, bytes) {
  const { limits, refusals } = readRules(latin1(bytes));
  const why = refusals.length ? `${name} is refused: ${refusals.map(({ line, what }) => `line ${line}: ${what}`).join("; ")}` : null;
  return { name, limits: [...limits], why };
}

// The limits with one of a rule in words, as `0.15`, `6mil`, or nothing for none; or why not.
/** @param {[string, number][]} limits @param {string} rule @param {string} words @returns {{ limits: [string, number][], why: string | null }} */
export function withLimit(limits, rule, words) {
  const all = new Map(limits);
  if (words.trim() === "") all.delete(rule);
  else {
    const why = takeRule(all, `${rule} ${words.trim()}`);
    if (why !== null) return { limits, why };
  }
  return { limits: [...RULES.keys()].flatMap((name) => (all.has(name) ? [/** @type {[string, number]} */ ([name, all.get(name)])] : [])), why: null };
}

/** @param {[string, number][]} one @param {[string, number][]} other */
export const areAlike = (one, other) => one.length === other.length && one.every(([rule, limit]) => other.some(([name, its]) => name === rule && its === limit));

const NONE = "none: nets alone", OWN = "own";

export class RulesChoice {
  /**
   * @param {Page.Runner} machine
   * @param {(checks: Partial<Machine.Checks>) => void} choose
   */
  constructor(machine, choose) {
    this.machine = machine;
    this.choose = choose;
    this.files = element("select", { id: "checks-rules", "aria-label": "rules", onchange: () => this.chosen() });
    this.fields = element("div", { id: "checks-limits" });
    this.more = element("details", {}, element("summary", {}, "Limits"), this.fields,
      element("p", { className: "hint" }, "In mm, or with a unit, as 6mil; an empty field is not checked. A file of rules can be dropped on the page: see docs/nets.md. "
        + "These limits are examples: take yours from your house."));
    this.parts = [element("label", { className: "row" }, element("span", {}, "rules"), this.files), this.more];
  }

  chosen() {
    const { value } = this.files, found = RULE_FILES.find(([name]) => name === value);
    if (found) this.choose({ name: found[0], limits: [...readRules(found[1]).limits] });
    else if (value === NONE) this.choose({ name: null, limits: [] });
  }

  /** @param {string} rule @param {HTMLInputElement} input */
  typed(rule, input) {
    const { checks } = this.machine.state, { limits, why } = withLimit(checks.limits, rule, input.value);
    if (why !== null) {
      this.machine.send({ kind: "say", text: why, isFault: true });
      input.value = this.valueOf(rule);
      return;
    }
    if (!areAlike(limits, checks.limits)) this.choose({ name: limits.length ? OWN : null, limits });
    else input.value = this.valueOf(rule);
  }

  /** @param {string} rule */
  valueOf(rule) {
    const limit = new Map(this.machine.state.checks.limits).get(rule);
    return limit === undefined ? "" : mm(limit);
  }

  /** @param {Machine.Checks} checks */
  show({ name, limits }) {
    const names = RULE_FILES.map(([its]) => its), own = limits.length && !names.includes(name ?? "") ? [name ?? OWN] : [];
    this.files.replaceChildren(...[NONE, ...names, ...own].map((value) => element("option", { value }, value)));
    this.files.value = limits.length ? name ?? OWN : NONE;
    redraw(this.fields, ...[...RULES].map(([rule, { title, definition }]) => {
      const input = element("input", { type: "text", value: this.valueOf(rule), "aria-label": `${title} in mm`, "data-rule": rule, autocomplete: "off" });
      input.onchange = () => this.typed(rule, input);
      return element("label", { className: "row", title: definition, "data-row": rule }, element("span", {}, title), input);
    }));
  }
}

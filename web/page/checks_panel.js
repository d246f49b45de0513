// The panel of the check: nets and rules together, by kind and the worst first. A click on a finding shows its place and draws its
// measure; another one accepts it, or takes that back. The nets' worker checks, tells how far it is, and can be stopped.

import { AcceptDialogue } from "./accept_dialogue.js";
import { ChecksLight } from "./checks_light.js";
import { RulesChoice, areAlike, isRulesFile, rulesOf } from "./checks_rules.js";
import { allOf, button, byId, element } from "./dom.js";
import { isAcceptedFile, mm, readAccepted, uncheckedWords } from "../nets/index.js";
import { joinedAccepted, keptWords, sorted, whoWords, withAccepted, withoutAccepted } from "./checks_list.js";
import { layerOf } from "../machine/index.js";
import { act } from "./actions.js";
import { noLayer } from "./reasons.js";
import { plural } from "../board/index.js";
import { utf8 } from "../bytes/index.js";

// A board whose check took no longer, in ms, is checked again after each edit.
const QUICK_MS = 2000;
// So many findings of a kind are listed at first, and as many more by a press.
const SOME = 50;
// How much of the board around a finding is shown: so many times the measure's length on each side, and at least so many nm.
const TIMES = 3, LEAST = 400_000;

/** @typedef {import("../nets/index.js").Finding} Finding */

export class ChecksPanel {
  /** @param {Page.Runner} machine @param {Page.View} view @param {import("./nets_panel.js").NetsPanel} nets */
  constructor(machine, view, nets) {
    this.machine = machine;
    this.nets = nets;
    this.light = new ChecksLight(view, machine);
    this.rules = new RulesChoice(machine, (checks) => this.set(checks));
    this.dialogue = new AcceptDialogue((finding, reason, by) => this.accept(finding, reason, by));
    // How far a check is, and after how many edits the last one began; which kinds are folded, and how many are listed of each.
    /** @type {{ what: string, done: number } | null} */
    this.checking = null;
    this.at = 0;
    /** @type {Set<string>} */
    this.folded = new Set(["accepted", "gone", "no point"]);
    /** @type {Map<string, number>} */
    this.listed = new Map();
    this.said = element("p", { id: "checks-said", className: "hint", role: "status" });
    this.progress = element("progress", { id: "checks-progress", max: 1, "aria-label": "how much of the check is done" });
    this.words = element("span", { id: "checks-words", className: "hint" });
    this.stopping = button("stop", () => this.stop(), { id: "checks-stop" });
    this.under = element("p", { id: "checks-under", className: "buttons", hidden: true }, this.progress, this.stopping, this.words);
    this.list = element("div", { id: "nets-findings", className: "lines" });
    this.build();
    act("check", "View", "Check nets and rules", [], () => this.check(), noLayer);
    machine.panel(({ nets: its, checks, layers }) => [its.findings, its.isBefore, its.led, its.netlist, checks, layers], () => this.show());
    machine.panel(({ nets: { led } }) => [led], () => view.paint());
  }

  build() {
    byId("checks").append(element("h2", {}, "Check ", element("small", { id: "checks-count" })), ...this.rules.parts,
      element("p", { className: "buttons" }, button("check", () => this.check(), { id: "nets-check" })), this.under, this.said, this.list);
  }

  // What was found, where some of it is shown.
  get found() {
    const { findings } = this.nets.nets;
    if (!findings) throw new Error("nothing was checked");
    return findings;
  }

  get state() {
    return this.machine.state;
  }

  /** @param {Partial<Machine.Checks>} changes */
  set(changes) {
    this.machine.send({ kind: "setting", changes: { checks: { ...this.state.checks, ...changes } } });
  }

  // Checks the board as it is now; where a check is under way, that one ends first.
  async check() {
    if (!this.nets.nets.isOn) this.nets.switchTo(true);
    if (this.checking) return;
    const { follow } = this.nets, at = follow.edits;
    this.tell({ what: "beginning", done: 0 });
    /** @type {{ findings: Machine.Findings | null, isStopped?: boolean } | null} */
    const answer = await follow.call("check", { limits: this.state.checks.limits });
    this.tell(null);
    if (!answer) return;
    this.at = at;
    if (answer.findings) this.nets.set({ findings: answer.findings, isBefore: false });
    else this.machine.send({ kind: "say", text: answer.isStopped ? "The check was stopped." : "No copper is open, so nothing is checked." });
    this.edited();
  }

  stop() {
    this.nets.follow.call("stop");
  }

  // The worker followed an edit: what is shown is from before it. A board that is checked quickly is checked again at once.
  edited() {
    const { nets: { findings }, follow } = this.nets;
    if (!findings || this.at === follow.edits) return;
    this.nets.set({ isBefore: true });
    if (findings.ms <= QUICK_MS && !this.checking) this.machine.await(this.check());
  }

  // How far the worker is; null where nothing is checked.
  /** @param {{ what: string, done: number } | null} checking */
  tell(checking) {
    this.checking = checking;
    this.under.hidden = checking === null;
    byId("nets-check").disabled = checking !== null;
    if (!checking) return;
    this.progress.value = checking.done;
    this.words.textContent = `${checking.what}, ${Math.floor(100 * checking.done)} %`;
  }

  // Takes files of rules and of accepted findings out of files that are opened; the others are given back.
  /** @param {Machine.File[]} files */
  take(files) {
    return files.filter(({ name, bytes }) => {
      if (isRulesFile(bytes)) this.takeRules(name, bytes);
      else if (isAcceptedFile(bytes)) this.takeAccepted(name, bytes);
      else return true;
      return false;
    });
  }

  /** @param {string} name @param {Uint8Array} bytes */
  takeRules(name, bytes) {
    const { limits, why } = rulesOf(name, bytes);
    this.machine.send({ kind: "say", text: why ?? `The rules are those of ${name}: ${plural(limits.length, "limit")}.`, isFault: why !== null });
    if (why === null) this.set({ name, limits });
  }

  /** @param {string} name @param {Uint8Array} bytes */
  takeAccepted(name, bytes) {
    const { findings, refusals } = readAccepted(utf8(bytes)), why = refusals.map(({ line, what }) => `line ${line}: ${what}`).join("; ");
    if (why) return this.machine.send({ kind: "say", text: `${name} is refused: ${why}`, isFault: true });
    this.set({ accepted: joinedAccepted(this.state.checks.accepted, findings) });
    return this.machine.send({ kind: "say", text: `${plural(findings.length, "accepted finding")} taken from ${name}.` });
  }

  /** @param {Finding} finding @param {string} reason @param {string} by */
  accept(finding, reason, by) {
    const { accepted, why } = withAccepted(this.state.checks.accepted, finding.kept, reason, by);
    if (why === null) this.set({ accepted, by: by.trim() });
    return why;
  }

  // The place of a finding, with the layers that it is of.
  /** @param {Finding} finding */
  lead(finding) {
    const { measure, place, shown } = finding, [from, to] = measure ?? [place, place], { labels } = this.found;
    const around = Math.max(LEAST, TIMES * Math.hypot(to.x - from.x, to.y - from.y));
    const box = { left: Math.min(from.x, to.x) - around, low: Math.min(from.y, to.y) - around, right: Math.max(from.x, to.x) + around,
      high: Math.max(from.y, to.y) + around };
    this.nets.set({ led: finding });
    for (const name of shown) this.machine.send({ kind: "lead", name, box: null });
    this.machine.send({ kind: "lead", name: place.layer === null ? null : labels[place.layer] ?? null, box });
  }

  // Drawing.

  show() {
    const { nets: { findings, isBefore, netlist }, checks } = this.state;
    this.rules.show(checks);
    byId("nets-check").textContent = findings ? "check again" : "check";
    const found = findings && !netlist?.refusals.length ? sorted(findings, checks.accepted) : null;
    byId("checks-count").textContent = found ? plural(found.groups.reduce((sum, group) => sum + group.findings.length, 0), "finding") : "";
    this.said.textContent = this.saidOf(isBefore);
    this.draw(netlist?.refusals.length ? this.refusedRows(netlist) : found ? this.rows(found) : []);
  }

  // What holds of all that is listed.
  /** @param {boolean} isBefore */
  saidOf(isBefore) {
    const { nets: { findings }, checks } = this.state;
    if (!findings) return "";
    const other = areAlike(findings.limits, checks.limits) ? "" : "Under the limits of before: check again. ";
    const before = !isBefore ? "" : findings.ms <= QUICK_MS ? "From before the last edit: it is checked again. " : "From before the last edit: check again. ";
    return `${before}${other}${findings.misfit ? `${findings.misfit}. ` : ""}At ${Number((findings.pitch / 1000).toFixed(1))} µm: gaps under that look closed.`;
  }

  /** @param {NonNullable<Machine.Nets["netlist"]>} netlist */
  refusedRows({ name, refusals }) {
    return [element("p", { className: "fault" }, `${name} is refused`), element("ul", {},
      ...refusals.slice(0, SOME).map(({ line, what }) => element("li", {}, `line ${line}: ${what}`)))];
  }

  /** @param {import("./checks_list.js").Sorted} found */
  rows({ groups, accepted, gone, summary }) {
    const findings = this.found;
    if (findings.misfit && !findings.limits.length) return [element("p", { className: "fault" }, findings.misfit)];
    const nothing = "Nothing to compare with: drop a netlist (IPC-D-356) on the page, or choose rules.";
    const folds = [...groups.map((group) => this.fold(group.kind, `${group.title}: ${group.findings.length}`, group.findings, (finding) => this.findingRow(finding))),
      this.fold("accepted", `Accepted: ${accepted.length}`, accepted, ({ finding, by }) => this.acceptedRow(finding, by)),
      this.fold("gone", `Accepted and gone: ${gone.length}`, gone, (kept) => this.goneRow(kept)),
      this.fold("no point", `Copper without a point: ${findings.loose.length}`, findings.loose, (loose) => this.looseRow(loose))];
    return [element("p", {}, element("b", {}, summary || nothing)), ...folds.flatMap((fold) => fold ?? []),
      ...findings.unchecked.map((unchecked) => element("p", { className: "hint" }, uncheckedWords(unchecked)))];
  }

  // A kind that can be folded: the first of its rows, and a button for more; none where it has no row.
  /** @template T @param {string} kind @param {string} title @param {T[]} all @param {(one: T) => HTMLElement} rowOf */
  fold(kind, title, all, rowOf) {
    if (!all.length) return null;
    const count = this.listed.get(kind) ?? SOME, left = all.length - count, isOpen = !this.folded.has(kind);
    const more = left > 0 ? [element("li", {}, button(`${left} more`, () => {
      this.listed.set(kind, count + 4 * SOME);
      this.show();
    }, { "data-key": `more ${kind}` }))] : [];
    const made = element("details", { className: "kind", "data-kind": kind, open: isOpen }, element("summary", { "data-key": `kind ${kind}` }, title),
      element("ul", {}, ...(isOpen ? all.slice(0, count).map(rowOf) : []), ...(isOpen ? more : [])));
    made.ontoggle = () => {
      if (made.open === isOpen) return;
      if (made.open) this.folded.delete(kind);
      else this.folded.add(kind);
      this.show();
    };
    return made;
  }

  /** @param {Finding} finding */
  findingRow(finding) {
    const { led } = this.nets.nets, { kept } = finding, key = JSON.stringify(kept), isLed = led !== null && JSON.stringify(led.kept) === key;
    return element("li", { className: isLed ? "on finding" : "finding" }, this.leading(finding, key, isLed),
      button("accept", () => this.dialogue.ask(finding, this.state.checks.by), { className: "only", "data-key": `accept ${key}` }));
  }

  // A button that leads to a finding's place: of one with several lines all of them.
  /** @param {Finding} finding @param {string} key @param {boolean} isLed */
  leading(finding, key, isLed) {
    const { lines, value, short, place, kind } = finding, on = place.layer === null ? "" : ` on ${this.label(this.found.labels[place.layer] ?? "")}`;
    const [first = ""] = lines, words = lines.length > 1 ? this.withPitch(lines, kind) : value === null ? first : `${mm(value)} mm: ${short}${on}`;
    return button(words, () => this.lead(finding), { title: first, "data-key": key, "aria-pressed": String(isLed) });
  }

  // A short may be a gap that is too narrow for the pitch.
  /** @param {string[]} lines @param {string} kind */
  withPitch([first, ...rest], kind) {
    const pitch = `${Number((this.found.pitch / 1000).toFixed(1))} µm`;
    return [kind === "short" ? `${first}, at ${pitch}: gaps under ${pitch} look closed` : first, ...rest].join("\n");
  }

  /** @param {Finding} finding @param {import("../nets/index.js").Kept} by */
  acceptedRow(finding, by) {
    const key = JSON.stringify(finding.kept);
    return element("li", { className: "finding" }, this.leading(finding, key, false), this.takingBack(by), element("small", {}, whoWords(by)));
  }

  /** @param {import("../nets/index.js").Kept} kept */
  goneRow(kept) {
    return element("li", { className: "finding" }, element("span", {}, keptWords(kept)), this.takingBack(kept), element("small", {}, whoWords(kept)));
  }

  /** @param {import("../nets/index.js").Kept} kept */
  takingBack(kept) {
    return button("take back", () => this.set({ accepted: withoutAccepted(this.state.checks.accepted, kept) }), { className: "only", "data-key": `back ${JSON.stringify(kept)}` });
  }

  /** @param {import("../nets/index.js").Loose} loose */
  looseRow({ place, area }) {
    const name = this.found.labels[place.layer] ?? "", box = { left: place.x - LEAST, low: place.y - LEAST, right: place.x + LEAST, high: place.y + LEAST };
    return element("li", { className: "finding" }, button(`no point: copper of ${area.toFixed(4)} mm² on ${this.label(name)}`,
      () => this.machine.send({ kind: "lead", name, box })));
  }

  /** @param {string} name */
  label(name) {
    return layerOf(this.state, name)?.label ?? name;
  }

  // Draws the list anew. What had the focus has it again, and the list stays where it was scrolled to.
  /** @param {(Node | string)[]} rows */
  draw(rows) {
    const { list } = this, { activeElement } = document;
    const focus = activeElement instanceof HTMLElement && list.contains(activeElement) ? activeElement.dataset.key : undefined;
    const { scrollTop } = list;
    list.replaceChildren(...rows);
    list.scrollTop = scrollTop;
    if (focus === undefined) return;
    allOf("[data-key]", HTMLElement, list).find(({ dataset }) => dataset.key === focus)?.focus({ preventScroll: true });
  }
}

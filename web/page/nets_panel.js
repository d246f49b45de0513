// The panel of the nets: the switch, the net that is lit, what lies next to it, and what an edit joined or cut.

import { ChecksPanel } from "./checks_panel.js";
import { NetsFollow } from "./nets_follow.js";
import { NetsLight } from "./nets_light.js";
import { isNetlist, limitWords, limitsOf, pointNames } from "../nets/index.js";
import { button, byId, element, redraw, textOf } from "./dom.js";
import { layerOf, pileSeen, shownLayers } from "../machine/index.js";
import { areaText, lengthIn, lengthText, plural, point } from "../board/index.js";
import { stackWords } from "./net_stack.js";

// How far around a place the board is shown, in nm: some pads beside it. So many findings are listed, more than are looked at
// one by one.
const AROUND = 1_000_000, MOST = 200;

// What is said of a board without copper.
/** @type {Machine.About} */
const NO_COPPER = { count: null, shown: [], copper: 0, missing: [], points: 0, isNetlist: false, shift: { x: 0, y: 0 }, pitch: 0, window: { x: 0, y: 0, pitch: 0, height: 0 } };

/** @param {number} pitch */
const micrometres = (pitch) => `${Number((pitch / 1000).toFixed(1))} µm`;

// The limit of what is found at a pitch, for the line that tells it.
/** @param {number} pitch */
const atPitch = (pitch) => `at ${micrometres(pitch)}: gaps under ${micrometres(limitsOf(pitch).gap)} look closed`;

// What is not known before the nets are found.
/** @type {Partial<Machine.Nets>} */
const NOTHING = { about: null, lit: null, near: null, change: null, findings: null, isBefore: false, led: null, netlist: null };

/** @param {Board.Point[]} places */
const boxAround = (...places) => ({ left: Math.min(...places.map(({ x }) => x)) - AROUND, low: Math.min(...places.map(({ y }) => y)) - AROUND,
  right: Math.max(...places.map(({ x }) => x)) + AROUND, high: Math.max(...places.map(({ y }) => y)) + AROUND });

/** @param {string[]} names */
const named = (names) => (names.length ? names.join(", ") : "copper");

// What changed in words, short for the history, and whole with its places.
/** @param {Page.NetChanges} changes @returns {Machine.NetChange | null} */
export function changeOf({ joins, cuts, before, after }) {
  const words = [...joins.map(({ names, nets }) => `joins ${names.length > 1 ? names.join(" and ") : `${nets.length} parts of ${named(names)}`}`),
    ...cuts.map(({ names, nets }) => `cuts ${named(names)} in ${nets.length}`)];
  if (!words.length && before === after) return null;
  const kind = joins.length && cuts.length ? "joins, cuts" : joins.length ? "joins" : cuts.length ? "cuts" : `${after > before ? "+" : "−"}${Math.abs(after - before)} net`;
  const count = before === after ? "" : ` (${before} to ${plural(after, "net")})`;
  return { kind, words: `${words.join("; ") || "other nets"}${count}`, places: [...joins, ...cuts].flatMap(({ place }) => place ? [{ place }] : []) };
}

export class NetsPanel {
  /** @param {Page.Runner} machine @param {Page.View} view @param {() => Promise<Uint8Array>} module */
  constructor(machine, view, module) {
    this.machine = machine;
    this.light = new NetsLight(view, machine);
    this.asked = 0;
    this.follow = new NetsFollow(machine, textOf("nets-worker"), module, (answer, step, isMade) => this.heard(answer, step, isMade),
      (checking) => this.checks.tell(checking));
    this.checks = new ChecksPanel(machine, view, this);
    this.listen();
    machine.panel(({ nets, unit, layers }) => [nets, unit, nets.isOn && layers], (state) => {
      this.show(state);
      this.light.draw();
    });
  }

  /** @param {Partial<Machine.Nets>} changes */
  set(changes) {
    this.follow.set(changes);
  }

  // Over the pictures of the view.
  paint() {
    this.light.paint();
    this.checks.light.paint();
  }

  get nets() {
    return this.machine.state.nets;
  }

  get unit() {
    return this.machine.state.unit;
  }

  listen() {
    byId("nets-on").onchange = () => this.switchTo(byId("nets-on").checked);
    byId("nets-pitch").onchange = () => this.set({ pitch: Number(byId("nets-pitch").value), ...NOTHING });
    byId("nets-dark").onclick = () => this.set({ lit: null, near: null });
    byId("nets-forget").onclick = () => this.compareWith({ name: null, bytes: null });
    byId("nets-next").onsubmit = (event) => {
      event.preventDefault();
      this.lookNext();
    };
  }

  /** @param {boolean} isOn */
  switchTo(isOn) {
    this.set({ isOn, why: null, ...NOTHING });
  }

  // What the worker found after lines: the mark of a step stays with it, whatever is undone later.
  /** @param {Page.NetsHeard} answer @param {Machine.Way} step @param {boolean} isMade */
  async heard({ changes, ms, ...about }, step, isMade) {
    const change = changes && changeOf(changes), { marks, lit } = this.nets;
    this.set({ about, change: change && { ...change, ms }, marks: change && isMade ? new Map(marks).set(step, change) : marks });
    this.checks.edited();
    if (lit) await this.lightAt(lit.at);
  }

  // A click of the tool: lights what hangs together with a place.
  /** @param {Board.Point} at */
  async lightAt(at) {
    if (!this.nets.isOn) this.switchTo(true);
    const number = ++this.asked, names = pileSeen(shownLayers(this.machine.state), this.light.view.isMirrored).map(({ name }) => name).reverse();
    /** @type {(Partial<Machine.About> & { net: Machine.LitNet | null }) | null} */
    const answer = await this.follow.call("net", { ...at, names });
    if (!answer || number !== this.asked) return;
    const { net, ...about } = answer;
    // (nothing but that is told where no copper is open)
    this.set({ about: { ...NO_COPPER, ...about }, lit: net && { ...net, at }, near: null });
    if (!net) this.machine.send({ kind: "say", text: "There is no copper of a shown layer." });
  }

  async lookNext() {
    const gap = lengthIn(byId("nets-gap").value, this.unit), { lit } = this.nets;
    if (!lit) return this.machine.send({ kind: "say", text: "No net is lit: choose the tool net, and click on copper.", isFault: true });
    if (!gap || gap < 0) return this.machine.send({ kind: "say", text: "The gap is no length.", isFault: true });
    /** @type {Pick<Machine.Nets, "near"> | null} */
    const answer = await this.follow.call("near", { net: lit.net, gap });
    if (answer) this.set({ near: answer.near });
    return undefined;
  }

  // Takes a netlist, rules and accepted findings out of files that are opened; the others are given back.
  /** @param {Machine.File[]} files */
  take(files) {
    const netlists = files.filter(({ bytes }) => isNetlist(bytes));
    for (const { name, bytes } of netlists) this.compareWith({ name, bytes });
    return this.checks.take(files.filter((file) => !netlists.includes(file)));
  }

  /** @param {{ name: string | null, bytes: Uint8Array | null }} file */
  async compareWith({ name, bytes }) {
    if (!this.nets.isOn) this.switchTo(true);
    this.set({ findings: null, led: null, netlist: null });
    /** @type {(Machine.About & { refusals: NonNullable<Machine.Nets["netlist"]>["refusals"] }) | null} */
    const answer = await this.follow.call("netlist", { bytes });
    if (!answer) return;
    const { refusals, ...about } = answer;
    this.set({ about, netlist: name ? { name, refusals } : null });
    if (name && !refusals.length) await this.checks.check();
  }

  // Drawing.

  /** @param {Machine.State} state */
  show({ nets }) {
    const { isOn, about, pitch } = nets;
    byId("nets-on").checked = isOn;
    byId("nets-pitch").value = String(pitch);
    byId("nets-body").hidden = !isOn;
    byId("nets-count").textContent = isOn && about?.count ? plural(about.count, "net") : "";
    byId("nets-said").textContent = this.saidOf(nets);
    byId("nets-stack").textContent = isOn ? stackWords(this.machine.state) : "";
    byId("nets-used").textContent = isOn && about?.pitch && about.pitch !== pitch ? `${micrometres(about.pitch)} used` : "";
    byId("nets-forget").hidden = !nets.netlist;
    byId("nets-dark").hidden = !nets.lit;
    this.showChange(nets.change);
    this.showLit(nets);
  }

  /** @param {Machine.Nets} nets */
  saidOf({ isOn, why, about, netlist }) {
    if (why) return why;
    if (!isOn) return "";
    if (!about) return "finding the nets ..";
    if (about.count === null) return "No copper is open.";
    const limit = limitWords(about.pitch);
    const missing = about.missing.length ? `Copper ${about.missing.join(", ")} is not open: what it joins is not seen. ` : "";
    const source = netlist ? `Compared with ${netlist.name}` : "Compared with what the files say themselves";
    const shifted = about.isNetlist && (about.shift.x || about.shift.y) ? `, shifted by ${point(about.shift.x, about.shift.y, this.unit)}` : "";
    const { misfit } = /** @type {Machine.About & { misfit?: string | null }} */ (about);
    const truth = misfit ? `${netlist?.name ?? "The netlist"}: ${misfit}. ` : about.points ? `${source}: ${plural(about.points, "point")}${shifted}. ` : "";
    return `${missing}${truth}${limit.slice(0, 1).toUpperCase()}${limit.slice(1)}.`;
  }

  /** @param {string | undefined} name @param {Board.Point[]} places */
  lead(name, ...places) {
    this.machine.send({ kind: "lead", name: name ?? null, box: boxAround(...places) });
  }

  /** @param {Machine.NetChange | null} change */
  showChange(change) {
    const box = byId("nets-change"), { about } = this.nets;
    if (!change || !about) return box.replaceChildren();
    const { shown } = about;
    const places = change.places.map(({ place }) => button("show where", () => this.lead(shown[place.layer], place), { className: "only" }));
    return redraw(box, element("b", {}, `The last edit ${change.words}, ${atPitch(about.pitch)}. `), ...places);
  }

  /** @param {Machine.Nets} nets */
  showLit({ lit, near, about }) {
    const rows = [];
    if (lit && about) {
      const copper = about.shown.slice(0, about.copper), all = lit.areas.reduce((sum, area) => sum + area, 0);
      const parts = copper.flatMap((name, at) => {
        const area = lit.areas[at];
        return area ? [`${this.label(name)} ${areaText(area, this.unit)}`] : [];
      });
      rows.push(element("h3", {}, lit.names.length ? lit.names.join(" and ") : "A net without a name"),
        element("p", {}, `${areaText(all, this.unit)} of copper (${parts.join(", ")}), ${plural(lit.holes, "hole")}`));
      if (lit.pins.length) rows.push(element("p", { className: "words" }, pointNames(/** @type {import("../nets/index.js").NetPoint[]} */ (lit.pins.map((name) => ({ name }))))));
    }
    byId("nets-lit").replaceChildren(...rows);
    redraw(byId("nets-near"), ...(near ?? []).slice(0, MOST).map(({ names, distance, place }) => element("li", {},
      button(`${named(names)}, ${lengthText(distance, this.unit)} ${this.unit}`, () => this.lead(about?.shown[place.layer], place)))),
    ...near && !near.length ? [element("li", { className: "hint" }, "no net is nearer")] : []);
  }

  /** @param {string} name */
  label(name) {
    return layerOf(this.machine.state, name)?.label ?? name;
  }
}

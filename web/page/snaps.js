// Points snap to items: to centres, ends and corners, else to edges. The station tells which items are near the pointer, and what is
// shown then is what a press takes: a point snaps where the sign stands.

import { edgeOf, entriesFrom, far, pointsOf, shapeOf } from "../board/index.js";
import { drawingTools, isOpening, shownLayers } from "../machine/index.js";

// Pixels of the page within which a point snaps: near enough to be meant, and twice as far as a click may go.
const REACH = 8;

// Which tools take points that snap.
/** @param {string} tool */
export const takesPoints = (tool) => Boolean(drawingTools[tool]) || tool === "measure" || tool === "origin";

/** @param {Board.Pair} point */
const whole = ([x, y]) => ({ x: Math.round(x), y: Math.round(y) });

export class Snaps {
  /** @param {Page.Runner} machine @param {Page.View} view */
  constructor(machine, view) {
    this.machine = machine;
    this.view = view;
    // Called when the station has answered.
    this.onFound = () => {};
    /** @type {(Machine.Place & { points: { kind: string, at: Board.Pair }[], shape: Board.Shape | null })[]} */
    this.items = [];
    /** @type {Map<string, Board.Entry[]>} */
    this.entries = new Map();
    /** @type {Board.Point | null} */
    this.asked = null;
    /** @type {Board.Point | null} */
    this.wanted = null;
    this.isUnderWay = false;
    // Items that were changed are asked for again.
    machine.panel(({ told, layers }) => [told, layers], () => this.forget());
  }

  forget() {
    this.items = [];
    this.entries = new Map();
    this.asked = this.wanted = null;
    this.isUnderWay = false;
  }

  get isOn() {
    return this.machine.state.hasSnaps;
  }

  get reach() {
    return REACH * this.view.density * this.view.pitch;
  }

  // Asks which items are near a point, one question at a time.
  /** @param {Board.Point} at */
  look(at) {
    const { machine } = this, { state } = machine;
    if (!this.isOn || !machine.link || !state.station.isOpen || isOpening(state)) return;
    this.wanted = at;
    if (!this.isUnderWay) this.ask();
  }

  async ask() {
    const { machine, machine: { link }, entries, wanted } = this;
    if (!wanted || !link) return;
    const { x, y } = wanted, names = shownLayers(machine.state).map(({ name }) => name);
    const unknown = names.filter((name) => !entries.has(name));
    this.isUnderWay = true;
    this.asked = this.wanted;
    try {
      // (twice as far, so that a small move has its items)
      /** @type {{ items: Machine.Listed[], entries: Record<string, string[]> }} */
      const found = await link.call("near", { names, unknown, x, y, reach: 2 * this.reach });
      if (entries !== this.entries) return;
      for (const [name, lines] of Object.entries(found.entries)) entries.set(name, entriesFrom(lines));
      this.items = found.items.map((item) => this.described(item));
    } catch {
      // The station stopped, which is told elsewhere.
    }
    if (entries !== this.entries) return;
    this.isUnderWay = false;
    this.onFound();
    if (this.wanted !== this.asked) this.ask();
  }

  /** @param {Machine.Listed} item */
  described({ name, place, words }) {
    const entries = this.entries.get(name);
    return { name, place, points: pointsOf(words, entries), shape: shapeOf(words, entries) };
  }

  // What a point snaps to: { x, y, kind, name, place }, null where nothing is near. `isLeftOut` says of which items that is not.
  /** @param {Board.Point} point @param {(item: Machine.Place) => boolean} isLeftOut @returns {Page.Snap | null} */
  at({ x, y }, isLeftOut = () => false) {
    if (!this.isOn) return null;
    const items = this.items.filter((item) => !isLeftOut(item)), { reach } = this;
    /** @type {Page.Snap | null} */
    let best = null;
    /** @param {Board.Pair | null} at @param {string} kind @param {Machine.Place} item */
    const take = (at, kind, { name, place }) => {
      const distance = at ? far(at, [x, y]) : Infinity;
      if (at && distance <= reach && (!best || distance < best.distance)) best = { ...whole(at), kind, name, place, distance };
    };
    for (const item of items) for (const { kind, at } of item.points) take(at, kind, item);
    if (!best) for (const item of items) if (item.shape) take(edgeOf(item.shape, [x, y]), "edge", item);
    return best;
  }
}

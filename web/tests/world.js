// The machine of the page with what stands around it, for its tests: the station, what keeps, and the events of a person at random.

import assert from "node:assert/strict";
import { firstState, scriptText } from "../machine/state.js";
import { step } from "../machine/step.js";
import { ModelJournal, ModelStation } from "./model.js";

export const bytesOf = (text) => new TextEncoder().encode(text);
export const gerber = (count) => bytesOf(`%FSLAX46Y46*%\n%MOMM*%\nG04 ${count} items*\n`);
export const REFUSED = bytesOf("%FSLAX46Y46*%\n%MOMM*%\nG04 refused*\n");

// The machine with what stands around it: answers come when `deliver` says so.
export class World {
  // `contents` is the board that the page holds.
  constructor(chance, contents = null) {
    this.chance = chance;
    this.contents = contents;
    this.anew();
  }

  anew() {
    this.journal = new ModelJournal();
    // The text of each layer as it was saved last.
    this.saved = {};
    // Whether that is so: a page that is opened again without all of its journal knows less than was saved.
    this.isKnown = true;
    this.open();
  }

  open() {
    this.state = firstState();
    this.station = new ModelStation();
    this.isAlive = false;
    this.inbox = { worker: [], kept: [], page: [] };
    // The item of each pick, by the pick's number.
    this.items = new Map();
    this.event({ kind: "begin", kept: this.journal.read(), contents: this.contents });
    this.start();
  }

  start() {
    this.station = new ModelStation();
    this.isAlive = true;
    this.inbox.worker = [];
    this.event({ kind: "started" });
  }

  event(event) {
    const before = this.state.work, { length } = this.state.told, { state, lines, messages } = step(this.state, event);
    this.state = state;
    if (lines) {
      assert.ok(this.isAlive, "lines for a station that stopped");
      assert.ok(!this.inbox.worker.some(({ number }) => number !== 0 && number !== lines.number), "two gestures at once");
      this.inbox.worker.push({ kind: "lines", ...lines });
    }
    for (const { to, ...message } of messages) {
      if (to === "worker") this.inbox.worker.push(message);
      else if (to === "kept") this.inbox.kept.push(message);
      else this.page(message);
    }
    // What was closed is another layer when it is opened again.
    if (event.kind !== "begin" && state.told.length < length) {
      for (const name of Object.keys(this.saved)) if (!state.layers.some((layer) => layer.name === name)) delete this.saved[name];
    }
    if (before && state.work?.number !== before.number) this.looked();
  }

  page(message) {
    if (message.kind === "try") this.tries = [...this.tries ?? [], message.refused];
    if (message.kind === "download" || message.kind === "script") this.inbox.page.push(message);
    if (message.kind === "start") this.isRestarting = true;
  }

  // The browser has what is handed out, or refuses it.
  handOut({ number, files, form }) {
    const why = this.chance() < 0.2 ? "it was refused" : null;
    // (a gesture that was dropped meanwhile does not hear of it)
    if (files && !form && why === null && this.state.work?.number === number) {
      for (const { layer, bytes } of files) this.saved[layer] = new TextDecoder().decode(bytes);
    }
    this.event({ kind: "answer", number, answer: { why } });
  }

  // A gesture ended: what is picked is still the item that was picked, and a new pick is of the item at its place.
  looked() {
    const { work, queue } = this.state, isReplaying = [work?.gesture, ...queue].some((gesture) => gesture?.kind === "replay");
    if (!this.isAlive || !this.state.station.isOpen || isReplaying) return;
    for (const { id, name, place } of this.state.picked) {
      const item = this.station.items(name)[place], known = this.items.get(id);
      // Another station has other items, which are known by their words.
      if (known?.isOfBefore) assert.equal(known.words, item?.words, `the pick ${name} ${place} is another item`);
      if (!known || known.isOfBefore) this.items.set(id, item);
      assert.equal(this.items.get(id), item, `the pick ${name} ${place} is another item`);
    }
  }

  // One answer of the worker, of what keeps or of the page.
  deliver(where) {
    const message = this.inbox[where].shift();
    if (!message) return undefined;
    if (where === "page") return this.handOut(message);
    if (where === "kept") {
      const answer = this.journal.write(message);
      return this.event({ kind: "kept", number: message.number, ...answer });
    }
    if (!this.isAlive) return undefined;
    return this.event({ kind: "answer", number: message.number, answer: this.station.answer(message) });
  }

  // Tries of conversions are answered, and stations started, when their time comes.
  attend() {
    for (const refused of (this.tries ?? []).splice(0)) {
      this.event({ kind: "tried", refused, why: "", ...[{ isAble: null }, { isAble: true }, { isAble: false, asks: ["unit"] }][refused % 3] });
    }
    if (this.isRestarting) {
      this.isRestarting = false;
      for (const [id, { words }] of this.items) this.items.set(id, { words, isOfBefore: true });
      this.station = new ModelStation();
      this.isAlive = true;
      this.inbox.worker = [];
      this.event({ kind: "restarted" });
    }
  }

  rest() {
    for (let turn = 0; turn < 10000; turn++) {
      this.attend();
      const { worker, kept, page } = this.inbox;
      const waits = [...worker.length && this.isAlive ? ["worker"] : [], ...kept.length ? ["kept"] : [], ...page.length ? ["page"] : []];
      if (!waits.length) break;
      this.deliver(waits[Math.floor(this.chance() * waits.length)]);
    }
  }

  check() {
    const { state } = this;
    if (state.work === null) {
      const { isOpen, isLost, why } = state.kept;
      if (isOpen && !isLost && why === null) assert.deepEqual(this.journal.told, state.told, "the journal is another");
    }
    if (state.work === null && this.isAlive && state.station.isOpen) {
      const again = new ModelStation();
      again.run(scriptText(state), state);
      assert.deepEqual(again.texts(), this.station.texts(), "the script makes another board");
      assert.deepEqual(state.layers.map(({ name, items }) => `${name} ${items}`).sort(),
        this.station.layers().map(({ name, items }) => `${name} ${items.length}`).sort());
      assert.deepEqual([state.steps.done.length, state.steps.undone.length], this.station.history());
      const savedTexts = { ...this.station.loadedTexts(), ...this.saved };
      if (state.unsaved === 0 && this.isKnown) assert.deepEqual(this.station.texts(), savedTexts, "not all is saved");
    }
  }
}

// The events of a person at random, each with its weight: gestures, and what goes past the queue.
export const NAMES = ["a.gtl", "b.gbl", "c.gto"];
export const PILE = ["top", "bottom", "top-2"];
const typed = (at) => ["begin", "end", "abort", "undo", "redo", "nonsense", `delete top ${at(30)}`,
  `insert bottom ${at(4)} flash 10 1 1 r0 dark`, `reorder top ${at(8)} ${at(8)}`, "# a comment", "load top gerber files/a.gtl",
  "load more gerber files/a.gtl", "setattr top .FileFunction Copper,L1,Top", "setattr bottom .FileFunction Legend,Bot",
  "dropattr top .FileFunction"][at(15)];
const drop = (at) => Array.from({ length: 1 + at(4) }, (_, k) =>
  ({ name: NAMES[(k + at(3)) % 3], bytes: at(5) === 0 ? REFUSED : gerber(1 + at(12)) }));
const edit = (weight, more) => [weight, (at, state) => ({ kind: "gesture", gesture: { kind: "edit", ...more(at, state) } })];
const gesture = (weight, make) => [weight, (at) => ({ kind: "gesture", gesture: make(at) })];

const events = [
  gesture(20, (at) => ({ kind: "pickAt", x: at(20), y: 0, reach: 1, isAdded: at(3) === 0, pile: PILE.slice(0, 2) })),
  gesture(8, (at) => ({ kind: "pickIn", box: { left: at(10), low: 0, right: 10 + at(20), high: 9 }, isAdded: at(4) === 0, pile: PILE })),
  gesture(2, (at) => ({ kind: "pickIn", box: { left: 0, low: 0, right: at(9), high: 9 }, isTouched: true, pile: PILE })),
  gesture(3, (at) => ({ kind: "pickLike", by: ["entry", "kind"][at(2)] })),
  edit(6, (at) => ({ verb: "turn", turn: ["r90", "r270", "m0", "m180"][at(4)] })),
  edit(3, (at) => ({ verb: "array", columns: 1 + at(3), rows: at(3), dx: 5, dy: 5 })),
  edit(3, (at) => ({ verb: "align", to: ["left", "right", "top", "bottom", "upright", "level"][at(6)] })),
  gesture(4, (at) => ({ kind: "pile", x: at(9), y: 0, pile: PILE.slice(0, 1 + at(3)) })),
  [4, (at, { menu }) => ({ kind: "gesture", gesture: { kind: "pickListed", menu: menu ?? { told: null }, item: menu?.items[at(2)] ?? { name: "top", place: 0 },
    isAdded: at(3) === 0 } })],
  gesture(2, (at) => ({ kind: "tally", changes: [{ isApertures: at(2) === 0 }, { lit: at(2) ? { name: "top", number: 10, items: null } : null }][at(2)] })),
  gesture(1, () => ({ kind: "gap" })),
  gesture(1, () => ({ kind: "compareView" })),
  edit(6, (at, { picked }) => ({ verb: "reshape", was: picked[0]?.words, words: `flash 10 ${2 * at(20)} 0 r0 dark`, of: picked.map(({ id }) => id) })),
  edit(10, () => ({ verb: "delete" })),
  edit(10, (at) => ({ verb: "move", dx: at(3) - 1, dy: 1 })),
  edit(6, (at, { picked }) => ({ verb: "move", dx: 1, dy: 1, of: picked.map(({ id }) => id) })),
  edit(10, (at) => ({ verb: "reorder", by: at(5) - 2 })),
  edit(4, (at) => ({ verb: "reorder", to: at(9) })),
  edit(6, (at) => ({ verb: "insert", words: `flash 10 ${at(20)} 0 r0 dark` })),
  edit(5, (at) => ({ verb: "polarity", value: ["dark", "clear"][at(2)] })),
  edit(16, () => ({ verb: "undo" })),
  edit(12, () => ({ verb: "redo" })),
  gesture(4, () => ({ kind: "copy" })),
  edit(4, () => ({ verb: "paste", dx: 1, dy: 1 })),
  gesture(6, (at) => ({ kind: "lines", lines: [typed(at)] })),
  gesture(3, (at) => ({ kind: "lines", lines: Array.from({ length: 1 + at(4) }, () => `move top ${at(12)} 1 0`) })),
  [4, (at) => ({ kind: "open", files: drop(at), token: "t" })],
  gesture(3, (at) => ({ kind: "save", isWhole: at(2) === 0, ...at(2) ? {} : { name: "top" } })),
  gesture(2, () => ({ kind: "script" })),
  gesture(2, (at) => ({ kind: "plot", names: PILE.slice(at(2), 2), pitch: 1000, form: "pbm" })),
  gesture(2, () => ({ kind: "compare", back: 1 })),
  [2, () => ({ kind: "escape" })],
  [2, (at) => ({ kind: "tool", name: ["pick", "flash", "region"][at(3)] })],
  [4, (at) => ({ kind: "point", x: at(9) * 10000, y: at(9) * 10000, isCentre: at(4) === 0 })],
  [2, () => ({ kind: "endMaking" })],
  [2, (at) => ({ kind: "show", name: at(2) ? null : "top", isShown: at(2) === 0 })],
  [1, () => ({ kind: "keepAgain" })],
  [1, () => ({ kind: "dismiss" })],
  [2, (at) => ({ kind: "function", name: PILE[at(3)], shows: ["top", "in3", "bottom-silk", "other"][at(4)] })],
  [2, (at) => ({ kind: "raise", name: PILE[at(3)], by: at(2) ? 1 : -1 })],
  [1, (at) => ({ kind: "layer", name: PILE[at(3)], changes: { label: `called ${at(9)}` } })],
  gesture(2, (at) => ({ kind: "close", name: [...PILE, "top-3"][at(4)] })),
  [1, (at) => at(20) ? { kind: "dismiss" } : { kind: "gesture", gesture: { kind: "closeAll" } }],
  [2, (at, { refused }) => ({ kind: "offerAll", refused: refused.map(({ id }) => id) })],
];
const WEIGHT = events.reduce((sum, [weight]) => sum + weight, 0);

export function randomEvent({ state }, at) {
  let rest = at(WEIGHT);
  for (const [weight, make] of events) {
    rest -= weight;
    if (rest < 0) return make(at, state);
  }
  return null;
}

// Runs the machine: gives it one event after another, and sends what it makes of them to the worker, to the journal and to
// the page. Then the panels draw what the state says.

import { firstState, isIdle, step } from "../machine/index.js";
import { faultWords } from "./store.js";

export class Runner {
  // `page` does what the machine asks of the page, by the kinds of its messages.
  /** @param {Page.Tasks} page */
  constructor(page) {
    this.state = firstState();
    this.page = page;
    /** @type {Page.Link | null} */
    this.link = null;
    /** @type {Page.Kept | null} */
    this.kept = null;
    /** @type {Machine.Event[]} */
    this.inbox = [];
    // What is done while the page still reads its journal comes behind all that it has kept.
    this.hasBegun = false;
    /** @type {Machine.Event[]} */
    this.early = [];
    this.isGoing = false;
    /** @type {{ pick: (state: Machine.State) => unknown[], draw: (state: Machine.State) => unknown, last: unknown[] | null }[]} */
    this.panels = [];
    // Who waits: for gestures by their ids, for openings, and for the machine to be idle.
    /** @type {Map<number | string, (result: Machine.Result | null) => void>} */
    this.gestures = new Map();
    /** @type {Map<number | string, (result: Machine.ToPage["opened"]["result"]) => void>} */
    this.openings = new Map();
    /** @type {{ isSo: () => boolean, done: () => void }[]} */
    this.waiting = [];
    // What is being read or written.
    this.awaited = 0;
    this.number = 0;
  }

  // A panel that is drawn when one of the parts changes that `pick` takes of the state.
  /** @param {(state: Machine.State) => unknown[]} pick @param {(state: Machine.State) => unknown} draw */
  panel(pick, draw) {
    this.panels.push({ pick, draw, last: null });
  }

  /** @param {Machine.Event} event */
  send(event) {
    if (!this.hasBegun && event.kind !== "begin") {
      this.early.push(event);
      return;
    }
    this.hasBegun = true;
    this.inbox.push(event, ...this.early.splice(0));
    if (this.isGoing) return;
    this.isGoing = true;
    for (let next = this.inbox.shift(); next; next = this.inbox.shift()) this.take(next);
    this.draw();
    this.isGoing = false;
    const rest = this.inbox.shift();
    if (rest) this.send(rest);
    else this.settle();
  }

  /** @param {Machine.Event} event */
  take(event) {
    try {
      const { state, lines, messages } = step(this.state, event);
      this.state = state;
      if (lines) this.link?.send({ kind: "lines", ...lines });
      for (const message of messages) this.deliver(message);
    } catch (fault) {
      // A fault of the page itself: the gesture under way is dropped, so that the others go on.
      console.error(fault);
      if (event.kind !== "broken") this.inbox.push({ kind: "broken", why: faultWords(fault) });
    }
  }

  /** @param {Machine.Message} message */
  deliver(message) {
    if (message.to === "worker") this.link?.send(message);
    else if (message.to === "kept") this.keep(message);
    else if (message.kind === "finished") this.finished(this.gestures, message.gesture, message.result);
    else if (message.kind === "opened") this.finished(this.openings, message.opening, message.result);
    else if (message.kind === "named") this.named(message);
    else {
      const task = /** @type {(message: Machine.Message) => unknown} */ (this.page[message.kind]);
      task(message);
    }
  }

  /** @param {Machine.ToKept} message */
  keep({ kind, number, ...what }) {
    const { kept } = this;
    if (!kept) throw new Error("there is no journal");
    this.await((kind === "anew" ? kept.writeAnew(what) : kept.write(what))
      .then((answer) => this.send({ kind: "kept", number, ...answer })));
  }

  // The machine is not idle before this is done.
  /** @param {Promise<unknown>} promise */
  async await(promise) {
    this.awaited++;
    await promise.catch((fault) => this.send({ kind: "fault", why: faultWords(fault) }));
    this.awaited--;
    this.settle();
  }

  /** @template T @param {Map<number | string, (result: T) => void>} waiting @param {number | string} id @param {T} result */
  finished(waiting, id, result) {
    waiting.get(id)?.(result);
    waiting.delete(id);
  }

  /** @param {Machine.ToPage["named"]} message */
  named({ token, opening }) {
    const done = this.openings.get(token);
    this.openings.delete(token);
    if (done) this.openings.set(opening, done);
  }

  // A gesture; done when it is, with what came of it.
  /** @param {Machine.Gesture} gesture @returns {Promise<Machine.Result | null>} */
  gesture(gesture) {
    const id = `gesture ${++this.number}`;
    return new Promise((done) => {
      this.gestures.set(id, done);
      this.send({ kind: "gesture", gesture: { ...gesture, id } });
    });
  }

  // Files; done when nothing of them is open any more.
  /**
   * @param {Machine.File[]} files
   * @param {boolean} areNamed
   * @param {string[]} faults
   * @returns {Promise<Machine.ToPage["opened"]["result"]>}
   */
  open(files, areNamed = true, faults = []) {
    const token = `opening ${++this.number}`;
    return new Promise((done) => {
      this.openings.set(token, done);
      this.send({ kind: "open", files, areNamed, faults, token });
    });
  }

  draw() {
    for (const panel of this.panels) {
      const now = panel.pick(this.state), { last } = panel;
      if (last && now.every((part, at) => part === last[at])) continue;
      panel.last = now;
      try {
        panel.draw(this.state);
      } catch (fault) {
        console.error(fault);
        this.inbox.push({ kind: "fault", why: faultWords(fault) });
      }
    }
  }

  get isIdle() {
    return isIdle(this.state) && this.inbox.length === 0 && this.awaited === 0 && !this.kept?.isBusy;
  }

  // Done when that is so.
  /** @param {() => boolean} isSo @returns {Promise<void>} */
  when(isSo) {
    return new Promise((done) => {
      this.waiting.push({ isSo, done });
      this.settle();
    });
  }

  settle() {
    const over = this.waiting.filter(({ isSo }) => isSo());
    if (!over.length) return;
    this.waiting = this.waiting.filter((waits) => !over.includes(waits));
    for (const { done } of over) done();
  }

  // Done when the page has begun: what it was left with is opened, but for what it asks.
  begun() {
    return this.when(() => isIdle(this.state) || this.state.work?.stage === "asking");
  }

  // Done when nothing is under way in the board that is shown, no refused file of it is tried, and its station does not just begin:
  // what is answered then would be taken for an answer to another board.
  atRest() {
    return this.when(() => {
      const { station } = this.state;
      return isIdle(this.state) && (station.isOpen || station.why !== null) && this.inbox.length === 0;
    });
  }

  // Done when nothing is under way, nothing waits, and all is written.
  idle() {
    return this.when(() => this.isIdle);
  }
}

// What the board says in words, as the page asks the worker for it: the one item that is picked, and all that is lit by what items
// share, which follows the edits.

import { faultWords } from "./store.js";
import { isOpening, tellingOf } from "../machine/index.js";

// Of a board with more items what is lit is let go by an edit: to find it anew takes too long for that.
const MANY = 200000;

export class Telling {
  /** @param {Page.Runner} machine */
  constructor(machine) {
    this.machine = machine;
    /** @type {(state: Machine.State) => unknown[]} */
    const now = (state) => [state.told, state.unit, JSON.stringify(tellingOf(state).layers), state.station.isOpen, isOpening(state)];
    machine.panel((state) => [state.picked, ...now(state)], (state) => this.tell(state));
    machine.panel((state) => [state.lit, state.told, state.station.isOpen, isOpening(state)], (state) => this.follow(state));
  }

  // What the worker answers; null where it has nothing, where it ended, or where another board is shown by then.
  /** @template T @param {string} kind @param {object} message @returns {Promise<Machine.Answer<T> | null>} */
  async ask(kind, message) {
    const { machine } = this, { link, state } = machine;
    if (!link || !state.station.isOpen || isOpening(state)) return null;
    /** @type {Promise<Machine.Answer<T> | null>} */
    const answer = link.call(kind, { ...message, ...tellingOf(state) });
    const asked = answer.catch((fault) => ({ found: null, why: faultWords(fault) }));
    machine.await(asked);
    const heard = await asked;
    return machine.link === link ? heard : null;
  }

  // Tells the item that is picked. What comes is of the board as it is then: where that is another item, it is told when the
  // page knows of it.
  /** @param {Machine.State} state */
  async tell({ picked: [item, ...others], inWords, told, unit }) {
    const { machine } = this;
    if (!item?.words || others.length) {
      if (inWords) machine.send({ kind: "setting", changes: { inWords: null } });
      return;
    }
    /** @type {Machine.Answer<Machine.Words> | null} */
    const answer = await this.ask("words", { name: item.name, place: item.place });
    const [now, ...more] = machine.state.picked, found = answer?.found ?? null;
    if (!answer || now?.id !== item.id || more.length || found && found.line !== now.words) return;
    machine.send({ kind: "setting", changes: { inWords: { id: item.id, told, unit, words: found, why: answer.why } } });
    // (in place of the station's line, which is what is said of a click)
    const { said } = machine.state;
    if (found && said.text === `${now.name} ${now.place}: ${now.words}`) machine.send({ kind: "say", text: found.sentence });
  }

  // What is lit is looked for anew where the board has changed.
  /** @param {Machine.State} state */
  follow(state) {
    const { lit, told, layers, work, queue } = state;
    if (!lit || lit.told === told || isOpening(state) || !state.station.isOpen) return;
    if (work?.gesture.kind === "light" || queue.some(({ kind }) => kind === "light")) return;
    const isSmall = layers.reduce((sum, { items }) => sum + items, 0) <= MANY;
    this.machine.gesture({ kind: "light", of: isSmall ? lit.of : null, isAgain: true });
  }

  // Lights all that shares something, or nothing where that is lit.
  /** @param {Machine.Shared} of @param {boolean} isLed */
  light(of, isLed = false) {
    const { lit } = this.machine.state, isLit = lit?.of.kind === of.kind && lit.of.id === of.id;
    return this.machine.gesture({ kind: "light", of: isLit && !isLed ? null : of, isLed });
  }
}

// The worker of the nets: it is started when the nets are switched on, gets every line that the station accepted, and tells
// what each joined and cut.

import { DEPTH, firstWord, isOpening, layerOf, wordsOf } from "../machine/index.js";
import { asShown, chosenFunctions } from "./net_stack.js";
import { Link } from "./station.js";

// A worker that ends within so many ms once more is not started again.
const AGAIN_MS = 30000;

const RETURNS = new Set(["undo", "redo", "abort"]);
// Lines that change nothing of the document.
const LOOKS = new Set(["plot", "write", "redraw", "list", "window"]);

export class NetsFollow {
  // `module` promises the station's module; `heard` gets what the worker answers to lines, with the step that they ended in, and
  // `checking` how far its check is.
  /**
   * @param {Page.Runner} machine
   * @param {string} source
   * @param {() => Promise<Uint8Array>} module
   * @param {(answer: Page.NetsHeard, step: Machine.Way, isMade: boolean) => unknown} heard
   * @param {(checking: { what: string, done: number }) => unknown} checking
   */
  constructor(machine, source, module, heard, checking) {
    this.machine = machine;
    this.source = source;
    this.module = module;
    this.heard = heard;
    this.checking = checking;
    /** @type {Link | null} */
    this.link = null;
    this.pitch = 0;
    this.sent = 0;
    // How many lines that change the document were sent to workers, in all.
    this.edits = 0;
    // When the worker began, and how often one ended soon after that by itself.
    this.begun = 0;
    this.ends = 0;
    /** @type {Machine.Told | null} */
    this.last = null;
    /** @type {Promise<object> | null} */
    this.opened = null;
    // What was chosen for the layers when it began.
    this.chosen = "";
    machine.panel((state) => [state.told, state.nets.isOn, state.nets.pitch, isOpening(state), chosenFunctions(state)],
      (state) => this.follow(state));
  }

  /** @param {Partial<Machine.Nets>} changes */
  set(changes) {
    this.machine.send({ kind: "setting", changes: { nets: { ...this.machine.state.nets, ...changes } } });
  }

  /** @param {Machine.State} state */
  follow(state) {
    const { told, nets, steps, files } = state;
    if (!nets.isOn) return this.end();
    if (isOpening(state)) return undefined;
    // Another document, another pitch, or layers that show something else: it is followed from its first line.
    const chosen = chosenFunctions(state);
    if (this.link && (this.pitch !== nets.pitch || this.chosen !== chosen || (this.sent > 0 && told[this.sent - 1] !== this.last))) this.end();
    this.chosen = chosen;
    if (!this.link) this.start(nets.pitch);
    const given = told.slice(this.sent).filter(({ reply }) => reply.startsWith("ok"));
    this.sent = told.length;
    this.last = told[told.length - 1] ?? null;
    if (given.length) this.send(given, files, steps.at, state);
    return undefined;
  }

  /** @param {number} pitch */
  start(pitch) {
    /** @type {Link} */
    const link = new Link(this.source, (news) => this.link === link && this.checking(/** @type {Page.NetsNews} */ (/** @type {unknown} */ (news)).checking),
      (why) => this.link === link && this.stopped(why));
    if (this.begun && performance.now() - this.begun > AGAIN_MS) this.ends = 0;
    this.begun = performance.now();
    this.link = link;
    this.pitch = pitch;
    this.sent = 0;
    this.opened = this.module().then((module) => link.call("open", { module, depth: DEPTH, pitch }));
    this.machine.await(this.opened.catch(() => {}));
  }

  // The worker ended by itself: it is told, and another one follows the script from its first line; but not for ever.
  /** @param {string} why */
  stopped(why) {
    this.link = null;
    this.ends++;
    if (this.ends > 1) return this.set({ isOn: false, why: `The nets stopped: ${why}` });
    this.machine.send({ kind: "say", text: `What finds the nets stopped (${why}), and begins again.`, isFault: true });
    this.set({ about: null, lit: null, near: null, change: null, findings: null, led: null });
    return this.follow(this.machine.state);
  }

  end() {
    const { link } = this;
    this.link = null;
    this.sent = 0;
    link?.end("switched off");
  }

  /** @param {Machine.Told[]} given @param {Machine.State["files"]} files @param {Machine.Way} step @param {Machine.State} state */
  send(given, files, step, state) {
    const lines = given.map(({ line, file }) => {
      const its = file === undefined ? undefined : files[file];
      return its ? { line, name: its.name, bytes: asShown(layerOf(state, wordsOf(line)[1] ?? null), state.layers, its.bytes) } : { line };
    });
    this.edits += given.filter(({ line }) => !LOOKS.has(firstWord(line))).length;
    const isMade = !RETURNS.has(firstWord(given.at(-1)?.line ?? ""));
    this.call("lines", { lines }).then((answer) => answer && this.heard(answer, step, isMade));
  }

  // An answer of the worker; null where it is gone.
  /** @template T @param {string} kind @param {object} message @returns {Promise<T | null>} */
  call(kind, message = {}) {
    const { link, opened } = this;
    if (!link || !opened) return Promise.resolve(null);
    const answer = opened.then(() => link.call(kind, message)).then((told) => (this.link === link ? told : null), () => null);
    this.machine.await(answer);
    return answer;
  }
}

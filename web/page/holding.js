// Which boards this window has: for each it holds a lock, from the board's first moment in it to its last, so no board is in two
// windows. A window asks another one for a board by a channel; one that does not answer has its lock stolen.

import { betweenFrom } from "./stored.js";

// How long a page that is being closed may take to do so: where a page is loaded anew, the old one may still hold its locks.
export const CLOSING_MS = 1500;
// How long a window may take to answer, and one that answered to hand its board over.
const SILENT_MS = 3000, HANDING_MS = 15000;

export class Holding {
  // `asked` hands a board over, or answers why not; `stolen` is told that it went without that; `heard` that something changed in
  // another window.
  /**
   * @param {Page.Platform} platform
   * @param {string} name
   * @param {{ asked: (key: string) => Promise<string | null>, stolen: (key: string) => unknown, heard: () => unknown }} told
   */
  constructor(platform, name, { asked, stolen, heard }) {
    this.platform = platform;
    this.name = name;
    this.asked = asked;
    this.stolen = stolen;
    this.heard = heard;
    this.self = platform.newName();
    // What lets go of each lock.
    /** @type {Map<string, () => void>} */
    this.held = new Map();
    // Who waits for a board of another window.
    /** @type {Map<string, (message: Page.Between) => void>} */
    this.waiting = new Map();
    this.channel = platform.openChannel(name);
    this.channel.onmessage = ({ data }) => {
      const message = betweenFrom(data);
      if (message) this.hear(message);
    };
  }

  /** @param {string} key */
  lockOf(key) {
    return `${this.name} ${key}`;
  }

  // A lock by these options: true once this window holds it, false where it does not get it.
  /** @param {string} key @param {LockOptions} options @returns {Promise<boolean>} */
  request(key, options) {
    const { locks } = this.platform;
    if (!locks) {
      this.held.set(key, () => {});
      return Promise.resolve(true);
    }
    return new Promise((done) => {
      /** @type {{ free?: () => void }} */
      const letGo = {};
      locks.request(this.lockOf(key), options, (lock) => {
        if (!lock) return done(false);
        return new Promise((/** @type {(value?: unknown) => void} */ free) => {
          letGo.free = free;
          this.held.set(key, free);
          done(true);
        });
      }).catch(() => {
        done(false);
        if (letGo.free && this.held.get(key) === letGo.free) {
          this.held.delete(key);
          this.stolen(key);
        }
      });
    });
  }

  // Takes a lock where it is free by then; a browser with much to do may need longer than that for a lock that nobody has.
  /** @param {string} key @param {number} patience @returns {Promise<boolean>} */
  async take(key, patience = 0) {
    if (!patience) return this.request(key, { ifAvailable: true });
    const { platform } = this, control = new AbortController();
    platform.pause(patience).then(() => control.abort());
    if (await this.request(key, { signal: control.signal })) return true;
    return (await this.elsewhere()).has(key) ? false : this.take(key, 2 * patience);
  }

  /** @param {string} key */
  letGo(key) {
    const free = this.held.get(key);
    this.held.delete(key);
    free?.();
  }

  // The boards that other windows have.
  /** @returns {Promise<Set<string>>} */
  async elsewhere() {
    const known = await this.platform.locks?.query(), before = this.lockOf("");
    const keys = (known?.held ?? []).flatMap(({ name }) => name?.startsWith(before) ? [name.slice(before.length)] : []);
    return new Set(keys.filter((key) => !this.held.has(key)));
  }

  // Asks the window that has a board for it: null once it is here, or why it is not.
  /** @param {string} key @returns {Promise<string | null>} */
  async ask(key) {
    if (this.held.has(key)) return null;
    if (this.waiting.has(key)) return "It is asked for already.";
    const { platform } = this, control = new AbortController();
    /** @type {string | null} */
    let why = null;
    let until = platform.now() + SILENT_MS;
    this.waiting.set(key, (message) => {
      if (message.kind === "handing") until = platform.now() + HANDING_MS;
      if (message.kind !== "refused") return;
      why = message.why;
      control.abort();
    });
    this.post({ kind: "ask", key, from: this.self });
    let isOver = false;
    const given = this.request(key, { signal: control.signal }).finally(() => { isOver = true; });
    (async () => {
      while (!isOver && platform.now() < until) await platform.pause(100);
      control.abort();
    })();
    const isGiven = await given;
    this.waiting.delete(key);
    if (isGiven || why) return isGiven ? null : why;
    return await this.request(key, { steal: true }) ? null : "The browser does not give it.";
  }

  /** @param {Page.Between} message */
  post(message) {
    this.channel.postMessage(message);
  }

  // Others look again at what there is.
  tell() {
    this.post({ kind: "news" });
  }

  /** @param {Page.Between} message */
  async hear(message) {
    if (message.kind === "news") return this.heard();
    if (message.kind !== "ask") return message.to === this.self && this.waiting.get(message.key)?.(message);
    const { key, from } = message;
    if (!this.held.has(key)) return undefined;
    this.post({ kind: "handing", key, to: from });
    const why = await this.asked(key);
    return why === null ? undefined : this.post({ kind: "refused", key, to: from, why });
  }
}

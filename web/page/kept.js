// The journal of a board: what the browser keeps of it. Each gesture is one record of its lines with their replies, next to the
// files of loads, what waits, and how the page looks. A write is all or nothing, and the board is listed by the first.

import { faultWords, settled } from "./store.js";
import { bytesFrom, entriesFrom, looksFrom, partOfKey, recordFrom, waitingFrom } from "./stored.js";

// What was kept is not there any more; or another window has it.
class Lost extends Error {}

export const LOST = "What the browser kept of this page was deleted, so what is done here is not kept. Save your work, or have it "
  + "kept again.";
export const TAKEN = "Another window took this board over, so what is done here is not kept. Have it kept again as a board of its own.";

export class Kept {
  // The journal of a board, whose record has what `board` says of it; where there is one already, `listing` is that. `heard` is told
  // when it keeps nothing any more.
  /** @param {import("./store.js").Store} store @param {Page.Titled} board @param {Page.Listing | null} listing @param {Page.Warn} heard */
  constructor(store, board, listing, heard) {
    this.store = store;
    this.board = board;
    this.key = board.key;
    this.heard = heard;
    this.isListed = listing !== null && !listing.isUnlisted;
    // Who writes it, as the record says: this page, once it was read.
    this.holder = listing?.holder ?? null;
    // The lines that were read of it, and its looks.
    /** @type {Machine.Told[]} */
    this.found = [];
    /** @type {Machine.Looks | null} */
    this.looks = null;
    this.isBusy = false;
    /** @type {Promise<unknown>} */
    this.writing = Promise.resolve();
    // Why it keeps nothing: the first write of a board failed, or it was lost.
    /** @type {string | null} */
    this.why = null;
    // Writes of looks after the journal was lost would bring back what a person deleted.
    this.isLost = false;
    // What is kept and cannot be read stays as it is.
    this.isUnread = false;
  }

  // Another window has the board, or a person deleted what was kept of it.
  lose(isTaken = false) {
    if (this.isLost) return;
    this.isLost = true;
    this.why = isTaken ? TAKEN : LOST;
    this.heard({ kind: "lost", why: this.why, isTaken }, this);
  }

  // Enters the board in the list, or again what is known of it, in the transaction of what it has.
  /** @param {Page.Stores} stores */
  async enter({ boards }) {
    const { board, key, store } = this, there = await settled(boards.get(key)), isThere = there !== undefined;
    if (isThere && this.isListed && recordFrom(there).holder !== this.holder) throw new Lost(TAKEN);
    if (!isThere && this.isListed) throw new Lost(LOST);
    let { number } = board;
    if (!isThere) {
      const others = (await settled(boards.getAll())).map((record) => recordFrom(record).number);
      if (others.includes(number)) number = 1 + Math.max(...others);
    }
    const { title, shown, hasContents } = board, { window } = store.platform;
    boards.put({ number, title, shown, hasContents, window, holder: store.holder }, key);
    return number;
  }

  // A transaction that enters the board and does what `act` does, or nothing of it.
  /** @param {(stores: Page.Stores) => unknown} act @returns {Promise<Machine.Written>} */
  async attempt(act) {
    if (this.isLost) return { isKept: false, isLost: true, why: this.why ?? LOST };
    // (a board that is made after all was deleted)
    if (!this.store.base && !this.store.why) await this.store.connect().catch(() => {});
    const { found, fault } = await this.store.attempt(async (stores) => {
      const number = await this.enter(stores);
      await act(stores);
      return number;
    });
    if (!fault) {
      Object.assign(this, { isListed: true, holder: this.store.holder });
      if (found !== null) this.board.number = found;
      return { isKept: true };
    }
    if (this.isLost || !(fault instanceof Lost)) {
      return { isKept: false, isLost: this.isLost, why: this.isLost ? this.why ?? LOST : this.words(fault) };
    }
    Object.assign(this, { isLost: true, why: fault.message });
    if (fault.message === TAKEN) this.heard({ kind: "lost", why: TAKEN, isTaken: true }, this);
    return { isKept: false, isLost: true, why: fault.message };
  }

  /** @param {unknown} fault */
  words(fault) {
    return `The browser cannot keep more (${faultWords(fault)}), so save your work.`;
  }

  // All that is kept: { records, files, looks, waiting, why, isOpen }; with `why` in place of what cannot be read, or was deleted by
  // now: what is done then can be kept. From now on the record says that this page has the board.
  /** @returns {Promise<Machine.Journal>} */
  async read() {
    const { key, store } = this;
    /** @type {Machine.Journal} */
    const nothing = { records: [], files: [], looks: null, waiting: null, why: store.why ?? this.why, isOpen: store.why === null };
    if (!nothing.isOpen || this.isLost || !this.isListed) return nothing;
    /** @param {Page.Stores} stores @returns {Promise<Machine.Journal>} */
    const all = async ({ lines, files, looks }) => {
      const range = store.of(key);
      const [records, names, bytes, its, waiting] = await Promise.all([settled(lines.getAll(range)), settled(files.getAllKeys(range)),
        settled(files.getAll(range)), settled(looks.get([key, "looks"])), settled(looks.get([key, "waiting"]))]);
      return { ...nothing, records: records.map(entriesFrom), files: names.map((name, at) => [partOfKey(name, 1), bytesFrom(bytes[at])]),
        looks: its === undefined ? null : looksFrom(its), waiting: waitingFrom(waiting) };
    };
    const { found } = await store.attempt(async (stores) => {
      await this.enter(stores);
      return all(stores);
    });
    if (found) this.holder = store.holder;
    // (where nothing can be written, it is still there to be read)
    const { found: read, fault } = found ? { found, fault: null } : await store.attempt(all, "readonly");
    this.looks = read?.looks ?? null;
    this.found = read?.records.flat() ?? [];
    if (!store.base) this.lose();
    if (this.isLost) return { ...read ?? nothing, why: this.why };
    this.isUnread = !read;
    return read ?? { ...nothing, isOpen: false, why: `What the browser kept cannot be read (${faultWords(fault)}), so save your work.` };
  }

  // The lines that are kept of it now, whichever window has it.
  /** @returns {Promise<Machine.Told[]>} */
  async lines() {
    const { found } = await this.store.attempt(({ lines }) => settled(lines.getAll(this.store.of(this.key))), "readonly");
    return (found ?? []).flatMap(entriesFrom);
  }

  // Lists a board in which nothing was done yet, or knows why not.
  async list() {
    if (this.store.why) return;
    const written = await this.attempt(() => {});
    this.why = written.isKept ? null : written.why ?? null;
  }

  // Writes records behind the first `from`, files, and what waits where that is given; answers { isKept, why, isLost }.
  /** @param {Omit<Machine.ToKept, "kind" | "number">} what */
  write({ from = 0, records, files, waiting }) {
    const { key } = this, isNew = !this.isListed;
    return this.attempt(async ({ lines, files: kept, looks }) => {
      if (from > 0 && await settled(lines.getKey([key, from])) === undefined) throw new Lost(LOST);
      records.forEach((entries, at) => lines.add({ entries }, [key, from + at + 1]));
      for (const [id, bytes] of files) kept.put(bytes, [key, id]);
      if (waiting) looks.put(waiting, [key, "waiting"]);
      if (isNew && this.looks) looks.put(this.looks, [key, "looks"]);
    });
  }

  // Writes all, in place of what is kept.
  /** @param {Omit<Machine.ToKept, "kind" | "number">} what @returns {Promise<Machine.Written>} */
  async writeAnew({ records, files, waiting }) {
    const { key, store } = this, wasLost = this.isLost;
    if (wasLost) {
      try {
        if (!store.base) await store.connect();
      } catch (fault) {
        return { isKept: false, isLost: true, why: this.words(fault) };
      }
      Object.assign(this, { isLost: false, isListed: false });
    }
    const answer = await this.attempt(async (stores) => {
      store.empty(stores, key);
      records.forEach((entries, at) => stores.lines.add({ entries }, [key, at + 1]));
      for (const [id, bytes] of files) stores.files.put(bytes, [key, id]);
      stores.looks.put(waiting, [key, "waiting"]);
      if (this.looks) stores.looks.put(this.looks, [key, "looks"]);
    });
    if (!answer.isKept) this.isLost ||= wasLost;
    // What changed of them meanwhile; the page is at rest only when that is written too.
    if (answer.isKept && this.looks) await this.keepLooks(this.looks);
    // (all of it may be deleted while that is written)
    return answer.isKept && this.isLost && this.why === LOST ? { isKept: false, isLost: true, why: LOST } : answer;
  }

  // How the page looks: what is shown, colours, the view. The last of several is written. A board in which nothing was done yet is
  // not listed for it.
  /** @param {Machine.Looks | null} looks */
  async keepLooks(looks = this.looks) {
    this.looks = looks;
    if (!this.store.base || this.isLost || this.isUnread || this.isBusy || !this.isListed) return;
    this.isBusy = true;
    this.writing = this.writeLooks();
    await this.writing;
  }

  async writeLooks() {
    for (let isWritten = false; !isWritten && !this.isLost;) {
      const written = this.looks, { title, shown } = this.board;
      await this.attempt(({ looks: store }) => written && store.put(written, [this.key, "looks"]));
      isWritten = written === this.looks && title === this.board.title && shown === this.board.shown;
    }
    this.isBusy = false;
  }

  // Done when no write of looks is under way.
  still() {
    return this.writing;
  }

  // Nothing is kept of it any more; whether that is so.
  async forget() {
    if (this.isLost || !this.isListed || !this.store.base) return true;
    const { isKept } = await this.attempt((stores) => {
      this.store.empty(stores, this.key);
      stores.boards.delete(this.key);
    });
    this.isLost = isKept;
    return isKept;
  }
}

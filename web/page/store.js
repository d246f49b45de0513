// The database in which a browser keeps the boards of this page, one for all windows. `boards` has a record of each board by its
// name; the other stores have its lines, its files and how it looks, by keys that begin with that name. So a board is listed,
// changed and deleted in one transaction with all that it has.

import { looksFrom, partOfKey, recordFrom } from "./stored.js";

const STORES = ["boards", "lines", "files", "looks"];
// A write that the browser does not answer is given up, and told: no gesture waits for ever for a browser that has stopped writing.
const SILENT_MS = 20000;

/** @template T @param {IDBRequest<T>} request @returns {Promise<T>} */
export const settled = (request) => new Promise((done, fail) => {
  request.onsuccess = () => done(request.result);
  request.onerror = () => fail(request.error);
});

/** @param {IDBTransaction} transaction @returns {Promise<void>} */
const ended = (transaction) => new Promise((done, fail) => {
  transaction.oncomplete = () => done();
  transaction.onabort = transaction.onerror = () => fail(transaction.error ?? new Error("the write was given up"));
});

// The database of a name, where it is there; null else. To look for it makes none.
/** @param {IDBFactory} factory @param {string} name @returns {Promise<IDBDatabase | null>} */
export function opened(factory, name) {
  const request = factory.open(name);
  let isNew = false;
  request.onupgradeneeded = () => {
    isNew = true;
    request.transaction?.abort();
  };
  return settled(request).then((base) => base, (fault) => {
    if (isNew) return null;
    throw fault;
  });
}

/** @param {unknown} fault */
export const faultWords = (fault) => fault instanceof Error && (fault.message || fault.name) || "it does not say why";

export class Store {
  // The database of this name; one that keeps nothing, and says why, where the browser has none. `lost` is told when it is deleted.
  /** @param {Page.Platform} platform @param {string} name @param {() => void} lost */
  static async open(platform, name, lost) {
    const store = new Store(platform, name, lost);
    try {
      await platform.inTime(store.connect(), SILENT_MS);
    } catch (fault) {
      store.base = null;
      store.why = `This browser keeps nothing for the page (${faultWords(fault)}), so save your work.`;
    }
    return store;
  }

  /** @param {Page.Platform} platform @param {string} name @param {() => void} lost */
  constructor(platform, name, lost) {
    this.platform = platform;
    this.name = name;
    this.lost = lost;
    /** @type {IDBDatabase | null} */
    this.base = null;
    /** @type {string | null} */
    this.why = null;
    // Who writes: a board's record names the page that has it, so that one that lost it unawares writes nothing more.
    this.holder = platform.newName();
  }

  async connect() {
    const request = this.platform.database().open(this.name, 1);
    request.onupgradeneeded = () => {
      for (const name of STORES) request.result.createObjectStore(name);
    };
    this.have(await settled(request));
  }

  // Opens it again after it was deleted, where another window has made it again.
  async join() {
    const base = this.base || this.why ? null : await opened(this.platform.database(), this.name).catch(() => null);
    if (base && !this.base) this.have(base);
  }

  /** @param {IDBDatabase} base */
  have(base) {
    base.onclose = () => this.over(base);
    base.onversionchange = () => {
      base.close();
      this.over(base);
    };
    this.base = base;
  }

  // It was deleted.
  /** @param {IDBDatabase} base */
  over(base) {
    if (this.base !== base) return;
    this.base = null;
    this.lost();
  }

  // A database that was deleted is closed before its window hears of that: it gives no transaction any more.
  /** @param {IDBTransactionMode} mode */
  begin(mode) {
    const { base } = this;
    if (!base) throw new Error("it is not open");
    try {
      return base.transaction(STORES, mode);
    } catch (fault) {
      if (fault instanceof Error && fault.name === "InvalidStateError") this.over(base);
      throw fault;
    }
  }

  // One transaction over all stores: all that `act` does in it, or nothing.
  /**
   * @template T
   * @param {(stores: Page.Stores) => Promise<T>} act
   * @param {"readwrite" | "readonly"} mode
   * @returns {Promise<{ found: T | null, fault: unknown }>}
   */
  async attempt(act, mode = "readwrite") {
    /** @type {IDBTransaction | null} */
    let transaction = null;
    try {
      const begun = transaction = this.begin(mode), end = ended(begun);
      /** @param {string} name */
      const store = (name) => begun.objectStore(name);
      end.catch(() => {});
      const acted = act({ boards: store("boards"), lines: store("lines"), files: store("files"), looks: store("looks") }).then(async (found) => {
        await end;
        return found;
      });
      return { found: await this.platform.inTime(acted, SILENT_MS), fault: null };
    } catch (fault) {
      try {
        transaction?.abort();
      } catch {
        // It ended already.
      }
      return { found: null, fault };
    }
  }

  // All that is kept of a board.
  /** @param {string} key */
  of(key) {
    return this.platform.range([key], [key, []]);
  }

  // Deletes all that is kept of a board, but for its record.
  /** @param {Page.Stores} stores @param {string} key */
  empty({ lines, files, looks }, key) {
    for (const store of [lines, files, looks]) store.delete(this.of(key));
  }

  // What a person is shown of kept boards: the picture of each, how many bytes its files have, and how many layers it had. The files
  // are read only where its looks, as earlier pages wrote them, do not have how many bytes these are.
  /** @param {string[]} keys @returns {Promise<{ face: Uint8Array | null, bytes: number, layers: number }[]>} */
  async looksOf(keys) {
    const { found } = await this.attempt(({ files, looks }) => Promise.all(keys.map(async (key) => {
      const { face = null, bytes, layers = [] } = looksFrom(await settled(looks.get([key, "looks"])));
      const sum = bytes ?? (await settled(files.getAll(this.of(key)))).reduce((all, file) => all + (Number(file?.length) || 0), 0);
      return { face, bytes: sum, layers: layers.length };
    })), "readonly");
    return found ?? keys.map(() => ({ face: null, bytes: 0, layers: 0 }));
  }

  // Every board that is kept, in the order in which they were made; and what no record lists, as a board that was found.
  /** @returns {Promise<Page.Listing[]>} */
  async list() {
    await this.join();
    const { found } = await this.attempt(async ({ boards, lines, files }) => {
      const [keys, records, its, others] = await Promise.all([settled(boards.getAllKeys()), settled(boards.getAll()),
        settled(lines.getAllKeys()), settled(files.getAllKeys())]);
      const filled = new Set([...its, ...others].map((name) => partOfKey(name, 0)));
      const listed = keys.map((key, at) => ({ ...recordFrom(records[at]), key: String(key), isBlank: !filled.has(String(key)) }));
      const known = new Set(listed.map(({ key }) => key));
      const lost = [...filled].filter((key) => !known.has(key)).map((key) => ({ key, number: 0, title: null, shown: 0, window: null,
        holder: null, isFound: true, isBlank: false, isUnlisted: true }));
      return [...listed, ...lost].sort((one, other) => one.number - other.number || (one.key < other.key ? -1 : 1));
    }, "readonly");
    return found ?? [];
  }
}

// A plain model of a browser's database, as much of it as the page uses: transactions one after another, each all or nothing; a quota;
// deletion by the user; and windows that are killed in the middle.

const fault = (name) => Object.assign(new Error(name), { name });

// The order of keys: numbers, then strings, then lists.
export function compared(one, other) {
  const rank = (key) => Array.isArray(key) ? 3 : typeof key === "string" ? 2 : 1;
  if (rank(one) !== rank(other)) return rank(one) - rank(other);
  if (!Array.isArray(one)) return one < other ? -1 : one > other ? 1 : 0;
  for (let at = 0; at < Math.min(one.length, other.length); at++) {
    const found = compared(one[at], other[at]);
    if (found) return found;
  }
  return one.length - other.length;
}

export const rangeOf = (from, to) => ({ from, to });
const isRange = (key) => key !== null && typeof key === "object" && "from" in key && "to" in key;
const isIn = (key, range) => range === undefined || (isRange(range) ? compared(key, range.from) >= 0 && compared(key, range.to) <= 0
  : compared(key, range) === 0);

// What stands in a store, by keys in their order: [[key, value]].
class Rows {
  constructor(rows = []) {
    this.rows = rows;
  }

  of(range) {
    return this.rows.filter(([key]) => isIn(key, range));
  }

  put(value, key, isNew) {
    const at = this.rows.findIndex(([other]) => compared(other, key) >= 0), isThere = at >= 0 && compared(this.rows[at][0], key) === 0;
    if (isThere && isNew) throw fault("ConstraintError");
    this.rows.splice(at < 0 ? this.rows.length : at, isThere ? 1 : 0, [structuredClone(key), structuredClone(value)]);
    return key;
  }

  delete(range) {
    this.rows = this.rows.filter(([key]) => !isIn(key, range));
  }
}

class StoreOf {
  constructor(transaction, name) {
    Object.assign(this, { transaction, name });
  }

  request(act) {
    return this.transaction.request(() => act(this.transaction.base.stores.get(this.name)));
  }

  get(key) { return this.request((rows) => structuredClone(rows.of(key)[0]?.[1])); }
  getKey(key) { return this.request((rows) => rows.of(key)[0]?.[0]); }
  getAll(range) { return this.request((rows) => structuredClone(rows.of(range).map(([, value]) => value))); }
  getAllKeys(range) { return this.request((rows) => structuredClone(rows.of(range).map(([key]) => key))); }
  count(range) { return this.request((rows) => rows.of(range).length); }
  put(value, key) { return this.write((rows) => rows.put(value, key, false)); }
  add(value, key) { return this.write((rows) => rows.put(value, key, true)); }
  delete(range) { return this.write((rows) => rows.delete(range)); }

  write(act) {
    if (this.transaction.mode !== "readwrite") throw fault("ReadOnlyError");
    this.transaction.hasWritten = true;
    return this.request(act);
  }
}

class Transaction {
  constructor(base, window, mode) {
    Object.assign(this, { base, window, mode, requests: [], before: null, hasWritten: false, isOver: false, error: null });
  }

  objectStore(name) {
    return new StoreOf(this, name);
  }

  request(act) {
    if (this.isOver) throw fault("TransactionInactiveError");
    const request = { act, result: undefined, error: null };
    this.requests.push(request);
    return request;
  }

  abort(error = null) {
    if (this.isOver) throw fault("InvalidStateError");
    this.isOver = true;
    this.error = error;
    if (this.before) this.base.stores = this.before;
    for (const request of this.requests.splice(0)) Object.assign(request, { error: fault("AbortError") }).onerror?.();
    this.base.next(this);
    this.window.task("database", () => this.onabort?.());
  }
}

class Base {
  constructor(browser, name) {
    Object.assign(this, { browser, name, stores: new Map(), connections: new Set(), waiting: [], active: null, isGone: false });
  }

  begin(transaction) {
    this.waiting.push(transaction);
    this.go();
  }

  go() {
    if (this.active || !this.waiting.length) return;
    this.active = this.waiting.shift();
    this.active.before = new Map([...this.stores].map(([name, { rows }]) => [name, new Rows(rows.slice())]));
    this.step(this.active);
  }

  next(transaction) {
    this.waiting = this.waiting.filter((other) => other !== transaction);
    if (this.active !== transaction) return;
    this.active = null;
    this.go();
  }

  // One request after another; when there is none any more, all of it is kept.
  step(transaction) {
    this.browser.task(null, `base ${this.name}`, () => {
      if (transaction.isOver) return;
      if (transaction.window.isDead) return transaction.abort();
      const request = transaction.requests.shift();
      if (request) this.answer(transaction, request);
      else if (transaction.hasWritten && this.browser.isFull) transaction.abort(fault("QuotaExceededError"));
      else {
        transaction.isOver = true;
        this.next(transaction);
        transaction.window.task("database", () => transaction.oncomplete?.());
      }
    });
  }

  answer(transaction, request) {
    try {
      request.result = request.act();
    } catch (error) {
      request.error = error;
    }
    if (request.error) {
      transaction.window.task("database", () => request.onerror?.());
      return transaction.abort(request.error);
    }
    transaction.window.task("database", () => request.onsuccess?.());
    // (what hears of it asks for more before the next step)
    return this.browser.task(transaction.window, "database", () => this.step(transaction), () => transaction.isOver || transaction.abort());
  }

  // A window is gone: what it was writing is not written, but for what is kept already.
  leave(window) {
    for (const transaction of [this.active, ...this.waiting]) if (transaction?.window === window) transaction.abort();
    for (const connection of [...this.connections]) if (connection.window === window) this.connections.delete(connection);
  }

  // What holds it open is told, and closed.
  close(isDeleted) {
    this.isGone = true;
    if (this.active) this.active.abort();
    for (const transaction of this.waiting.slice()) transaction.abort();
    for (const connection of [...this.connections]) {
      this.connections.delete(connection);
      connection.window.task("database", () => isDeleted ? connection.onclose?.() : connection.onversionchange?.());
    }
    this.browser.bases.delete(this.name);
  }
}

class Connection {
  constructor(base, window) {
    Object.assign(this, { base, window, onclose: null, onversionchange: null });
    base.connections.add(this);
  }

  createObjectStore(name) {
    this.base.stores.set(name, new Rows());
  }

  transaction(names, mode = "readonly") {
    if (!this.base.connections.has(this)) throw fault("InvalidStateError");
    const transaction = new Transaction(this.base, this.window, mode);
    this.base.begin(transaction);
    return transaction;
  }

  close() {
    this.base.connections.delete(this);
  }

  get isOpen() {
    return this.base.connections.has(this);
  }
}

// The databases of a browser, as a window has them.
export const factoryOf = (window) => {
  const { browser } = window, later = (act) => window.task("database", act);
  return {
    open(name) {
      const request = { result: null, error: null, transaction: null };
      later(() => {
        const isNew = !browser.bases.has(name), base = isNew ? new Base(browser, name) : browser.bases.get(name);
        request.result = new Connection(base, window);
        if (!isNew) return request.onsuccess?.();
        let isAborted = false;
        request.transaction = { abort: () => { isAborted = true; } };
        request.onupgradeneeded?.();
        if (isAborted) return Object.assign(request, { error: fault("AbortError") }).onerror?.();
        browser.bases.set(name, base);
        return request.onsuccess?.();
      });
      return request;
    },
    deleteDatabase(name) {
      const request = { result: undefined, error: null };
      later(() => {
        browser.bases.get(name)?.close(false);
        later(() => request.onsuccess?.());
      });
      return request;
    },
    databases: async () => [...browser.bases.keys()].map((name) => ({ name })),
  };
};

// The contents of a store of before, or of any: { STORE: [[key, value]] }.
export function putBase(browser, name, contents) {
  const base = new Base(browser, name);
  for (const [store, rows] of Object.entries(contents)) base.stores.set(store, new Rows(structuredClone(rows)));
  browser.bases.set(name, base);
}

// What is kept in a store; what is being written is not yet.
export function rowsOf(browser, name, store) {
  const base = browser.bases.get(name);
  return (base?.active?.before ?? base?.stores)?.get(store)?.rows ?? [];
}

// A plain model of a browser with several windows: what happens in it comes one after another, by chance where the order is open. Its
// windows share databases, locks and channels; each can be killed, or stand still, at any moment.

import { factoryOf, rangeOf } from "./database.js";

export class ModelBrowser {
  constructor(chance) {
    Object.assign(this, { chance, bases: new Map(), locks: new Map(), windows: new Set(), lanes: new Map(), timers: [], time: 1000, names: 0,
      isFull: false, happened: () => {} });
  }

  // Something that happens in its time, after what is in its lane before it; `instead` where the window is dead by then.
  task(window, lane, act, instead = null) {
    const name = window ? `${window.id} ${lane}` : lane, tasks = this.lanes.get(name) ?? [];
    tasks.push({ window, act, instead });
    this.lanes.set(name, tasks);
  }

  // One of the things that are due; whether there was one.
  async happen() {
    const due = [...this.lanes].filter(([, [{ window }]]) => !window?.isStill);
    if (!due.length) return this.wake();
    const [name, tasks] = due[Math.floor(this.chance() * due.length)], { window, act, instead } = tasks.shift();
    if (!tasks.length) this.lanes.delete(name);
    if (!window?.isDead) act();
    else if (instead) instead();
    // (all that is promised comes before the next task)
    await new Promise((done) => { setImmediate(done); });
    this.happened();
    return true;
  }

  // The clock goes on where nothing else is due, but not for those who stand still.
  async wake() {
    this.timers = this.timers.filter(({ window }) => !window.isDead);
    const [first] = this.timers.filter(({ window }) => !window.isStill).sort((one, other) => one.at - other.at);
    if (!first) return false;
    this.time = Math.max(this.time, first.at);
    this.timers = this.timers.filter((timer) => timer !== first);
    first.done();
    await new Promise((done) => { setImmediate(done); });
    this.happened();
    return true;
  }

  // All that is due, and what the clock brings within so many ms.
  async rest(ms = 0) {
    const until = this.time + ms;
    // (what was begun just now asks for its first task)
    await new Promise((done) => { setImmediate(done); });
    for (let turn = 0; turn < 200000; turn++) {
      const isDue = [...this.lanes.values()].some(([{ window }]) => !window?.isStill);
      const isTime = this.timers.some(({ at, window }) => at <= until && !window.isStill && !window.isDead);
      if (!isDue && !isTime) return;
      await this.happen();
    }
    throw new Error("it does not come to rest");
  }

  kill() {
    for (const window of [...this.windows]) window.kill();
  }

  // The user deletes what the browser has of the page.
  deleteData() {
    for (const base of [...this.bases.values()]) base.close(true);
  }
}

// The locks of a browser, as a window has them.
const locksOf = (window) => {
  const { browser, browser: { locks } } = window;
  const of = (name) => {
    if (!locks.has(name)) locks.set(name, { holder: null, queue: [] });
    return locks.get(name);
  };
  const give = (name) => {
    const lock = of(name);
    while (!lock.holder && lock.queue.length) {
      const asking = lock.queue.shift();
      if (asking.window.isDead) continue;
      lock.holder = asking;
      asking.window.task("locks", asking.granted);
    }
  };
  return {
    request(name, options, callback) {
      return new Promise((done, fail) => {
        const lock = of(name), asking = { window, fail };
        const over = () => {
          if (lock.holder !== asking) return;
          lock.holder = null;
          give(name);
        };
        asking.over = over;
        asking.granted = () => Promise.resolve(callback({ name })).then((value) => {
          over();
          done(value);
        }, (thrown) => {
          over();
          fail(thrown);
        });
        const aborted = () => Object.assign(new Error("aborted"), { name: "AbortError" });
        if (options.steal) {
          const before = lock.holder;
          lock.holder = asking;
          before?.window.task("locks", () => before.fail(aborted()));
          return window.task("locks", asking.granted);
        }
        if (options.ifAvailable && (lock.holder || lock.queue.length)) return window.task("locks", () => done(callback(null)));
        lock.queue.push(asking);
        options.signal?.addEventListener("abort", () => {
          if (!lock.queue.includes(asking)) return;
          lock.queue = lock.queue.filter((other) => other !== asking);
          fail(aborted());
        });
        return give(name);
      });
    },
    query: () => new Promise((done) => {
      window.task("locks", () => done({ held: [...locks].filter(([, { holder }]) => holder).map(([name]) => ({ name })), pending: [] }));
    }),
    // What a window that is killed held is free.
    free() {
      for (const [name, lock] of locks) {
        lock.queue = lock.queue.filter((asking) => asking.window !== window);
        if (lock.holder?.window !== window) continue;
        lock.holder = null;
        browser.task(null, "locks", () => give(name));
      }
    },
  };
};

let windows = 0;

// A window with what it has of the browser; `session` is what stays of one that is loaded anew.
export class ModelWindow {
  constructor(browser, session = null) {
    this.id = ++windows;
    Object.assign(this, { browser, session: session ?? `window ${this.id}`, isFresh: session === null, isDead: false, isStill: false, channels: [] });
    this.locks = locksOf(this);
    browser.windows.add(this);
  }

  task(lane, act) {
    this.browser.task(this, lane, act);
  }

  kill() {
    this.isDead = true;
    this.browser.windows.delete(this);
    for (const base of this.browser.bases.values()) base.leave(this);
    this.locks.free();
  }

  openChannel(name) {
    const { browser } = this, channel = { name, window: this, onmessage: null };
    channel.postMessage = (data) => {
      for (const other of [...browser.windows].flatMap((window) => window.channels)) {
        if (other !== channel && other.name === name) other.window.task("channel", () => other.onmessage?.({ data: structuredClone(data) }));
      }
    };
    this.channels.push(channel);
    return channel;
  }

  // What the page needs of it (web/page/platform.js).
  get platform() {
    const { browser } = this;
    return {
      window: this.session, isFresh: this.isFresh, locks: this.locks, newName: () => `name ${++browser.names}`,
      openChannel: (name) => this.openChannel(name), database: () => factoryOf(this), range: rangeOf, now: () => browser.time,
      pause: (ms) => new Promise((done) => { browser.timers.push({ at: browser.time + ms, done, window: this }); }),
      inTime: (promise) => promise,
    };
  }
}

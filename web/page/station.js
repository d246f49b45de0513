// A worker, as that with the station. What it answers, and that it stopped, is told to `heard`.

// A worker holds a lock as long as it lives: the page, which waits for that lock, gets it when the worker ended, however that was.
const ALIVE = `if (self.navigator.locks) {
  const lock = "camplot worker " + [...crypto.getRandomValues(new Uint32Array(4))].join(" ");
  navigator.locks.request(lock, () => {
    self.postMessage({ kind: "alive", lock });
    return new Promise(() => {});
  }).catch(() => {});
}
`;

export class Link {
  // Starts a worker of this source; { number, answer } and news go to `heard`, and that it stopped to `stopped`.
  /** @param {string} source @param {(message: Page.News) => void} heard @param {(why: string) => void} stopped */
  constructor(source, heard, stopped) {
    this.url = URL.createObjectURL(new Blob([ALIVE, source], { type: "text/javascript" }));
    this.worker = new Worker(this.url);
    this.isOver = false;
    this.stopped = stopped;
    /** @type {Map<number, { done: (answer: unknown) => void, fail: (fault: Error) => void }>} */
    this.waiting = new Map();
    this.number = 0;
    this.worker.onmessage = ({ data }) => {
      if (this.isOver) return;
      if (data.kind === "alive") return this.watch(data.lock);
      if (data.call !== undefined) return this.called(data);
      if (data.fault !== undefined) return this.end(data.fault);
      heard(data);
    };
    this.worker.onerror = (event) => this.end(event.message || "it ended");
    this.worker.onmessageerror = () => this.end("a message could not be read");
  }

  /** @param {string} lock */
  watch(lock) {
    navigator.locks?.request(lock, () => this.end("it ended")).catch(() => {});
  }

  /** @param {{ call: number, answer?: unknown, fault?: string }} data */
  called({ call, answer, fault }) {
    const waits = this.waiting.get(call);
    this.waiting.delete(call);
    if (fault === undefined) return waits?.done(answer);
    waits?.fail(new Error(fault));
    return this.end(fault);
  }

  /** @param {string} why */
  end(why) {
    if (this.isOver) return;
    this.isOver = true;
    this.worker.terminate();
    URL.revokeObjectURL(this.url);
    for (const { fail } of this.waiting.values()) fail(new Error(why));
    this.stopped(why);
  }

  /** @param {object} message @param {Transferable[]} over */
  send(message, over = []) {
    if (!this.isOver) this.worker.postMessage(message, over);
  }

  // A message with an answer of its own, past the machine: to open the station. A worker that ended answers nothing any more.
  /** @template T @param {string} kind @param {object} message @param {Transferable[]} over @returns {Promise<T>} */
  call(kind, message = {}, over = []) {
    if (this.isOver) return Promise.reject(new Error("it ended"));
    const call = ++this.number;
    return new Promise((done, fail) => {
      // (what a worker of the page answers to a kind is known to who asks it)
      this.waiting.set(call, { done: (answer) => done(/** @type {T} */ (answer)), fail });
      this.send({ call, kind, ...message }, over);
    });
  }
}

// Faults that a browser can have, put into a page before its own script runs. Each is the source of a script.

const source = (run, ...words) => `(${run})(${words.map((word) => JSON.stringify(word)).join(", ")})`;

// A database whose writes can be refused, or during which the page's process can be ended: `faults` in the page has how
// many writes there were, and at which one something happens. Needs the binding `killed` where the page is to be ended.
export const WRITES = source(() => {
  const faults = globalThis.faults = { writes: 0, at: 0, what: "" };
  // The browser is told, and nothing more happens in the page.
  const stop = () => {
    globalThis.killed("");
    for (;;);
  };
  const arm = (transaction) => {
    if (faults.what === "stop when done") transaction.addEventListener("complete", stop);
    if (faults.what === "abort") transaction.abort();
    if (faults.what === "stop") stop();
  };
  for (const verb of ["add", "put", "clear", "delete"]) {
    const whole = IDBObjectStore.prototype[verb];
    IDBObjectStore.prototype[verb] = function write(...words) {
      const isNow = ++faults.writes === faults.at;
      if (isNow && faults.what === "stop before") stop();
      if (isNow && faults.what === "throw") throw new DOMException("refused by the test", "QuotaExceededError");
      const request = whole.apply(this, words);
      if (isNow) arm(this.transaction);
      return request;
    };
  }
});

// A browser that gives no database.
export const NO_DATABASE = source(() => {
  IDBFactory.prototype.open = () => { throw new DOMException("the test gives none", "SecurityError"); };
});

// A module that traps in the Nth line that it applies, in the first worker of the page.
export const trapAt = (count) => source((at) => {
  const inWorker = (number) => {
    let lines = 0;
    const trapping = (instance) => {
      const { camplot_apply: apply } = instance.exports;
      const exports = { ...instance.exports, camplot_apply: (...words) => {
        if (++lines === number) throw new WebAssembly.RuntimeError("unreachable");
        return apply(...words);
      } };
      return { exports };
    };
    const Whole = WebAssembly.Instance, whole = WebAssembly.instantiate;
    WebAssembly.Instance = function Instance(...words) { return trapping(new Whole(...words)); };
    WebAssembly.instantiate = async (...words) => {
      const made = await whole(...words);
      return made.instance ? { ...made, instance: trapping(made.instance) } : trapping(made);
    };
  };
  const Plain = Blob;
  let isFirst = true;
  globalThis.Blob = function Made(parts, options) {
    const isScript = isFirst && /javascript/.test(options?.type ?? "");
    isFirst &&= !isScript;
    return new Plain(isScript ? [`(${inWorker})(${at});\n`, ...parts] : parts, options);
  };
  globalThis.Blob.prototype = Plain.prototype;
}, count);

// A browser that gives locks late, so that a page reads late what it has kept.
export const lateLocks = (ms) => source((delay) => {
  const whole = LockManager.prototype.request;
  LockManager.prototype.request = function request(...words) {
    return new Promise((done) => { setTimeout(done, delay); }).then(() => whole.apply(this, words));
  };
}, ms);

// Workers that a test can end: `workers` in the page.
export const WORKERS = source(() => {
  const Plain = Worker;
  const started = globalThis.workers = [];
  globalThis.Worker = class extends Plain {
    constructor(...words) {
      super(...words);
      started.push(this);
    }
  };
});

// Workers that get each message so many ms late, as where the station has much to do.
export const late = (ms) => source((delay) => {
  const send = Worker.prototype.postMessage;
  Worker.prototype.postMessage = function postMessage(...words) {
    setTimeout(() => send.apply(this, words), delay);
  };
}, ms);

// A part of the browser that fails: its name in the page, as "URL.createObjectURL".
export const failing = (name) => source((path) => {
  const words = path.split("."), last = words.pop();
  const at = words.reduce((found, word) => found[word], globalThis);
  at[last] = function fails() { throw new Error("it fails by the test"); };
}, name);

// Lets a page of the faults above be ended by the browser.
export async function canBeEnded(tab) {
  await tab.call("Runtime.addBinding", { name: "killed" });
}

// Something happens at the Nth write from now on.
export const armWrite = (tab, what, at) =>
  tab.ask(`Object.assign(faults, { writes: 0, at: ${at}, what: ${JSON.stringify(what)} }); 0`);

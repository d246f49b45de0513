// Pages of one browser, as a user's tabs are: each keeps its work with the others of its context, and a context is as good as
// a browser of its own.

import { rmSync } from "node:fs";
import { afterwards } from "../../tools/tests/harness.js";
import { Browser } from "./browser.js";
import { builtPage } from "./support.js";

// A browser for tabs, which ends with this process and does not keep it.
export async function openBrowser() {
  const browser = new Browser();
  await browser.start(null, 1280, 800, 1);
  for (const part of [browser.process, ...browser.process.stdio.slice(3)]) part.unref();
  process.on("exit", () => {
    browser.process.kill("SIGKILL");
    removed(browser.profile);
  });
  return browser;
}

// The browser's own processes may write for a moment yet.
function removed(folder) {
  for (let turn = 0; turn < 40; turn++) {
    try {
      return rmSync(folder, { recursive: true, force: true });
    } catch {
      Atomics.wait(new Int32Array(new SharedArrayBuffer(4)), 0, 0, 50);
    }
  }
}

export class Tab extends Browser {
  // A tab in a context, or in one of its own; `first` are scripts that run before those of the page.
  // `quota` is how many bytes the browser keeps of it: it has to be known before the page opens a database.
  static async open(browser, { page = builtPage(), context = null, first = [], quota = null, isReady = true } = {}) {
    const owned = context ?? (await browser.call("Target.createBrowserContext", {}, null)).browserContextId;
    const tab = new Tab(browser, owned);
    await tab.attach(first);
    if (quota !== null) await tab.call("Storage.overrideQuotaForOrigin", { origin: "file:///", quotaSize: quota });
    await tab.visit(page, isReady);
    return tab;
  }

  constructor(browser, context) {
    super();
    Object.assign(this, { browser, context, isLeaving: false });
  }

  async attach(first) {
    const where = { url: "about:blank", browserContextId: this.context };
    this.target = (await this.call("Target.createTarget", where, null)).targetId;
    this.session = (await this.call("Target.attachToTarget", { targetId: this.target, flatten: true }, null)).sessionId;
    await this.call("Emulation.setDeviceMetricsOverride", { width: 1280, height: 800, deviceScaleFactor: 1, mobile: false });
    await this.call("Emulation.setFocusEmulationEnabled", { enabled: true });
    for (const part of ["Page", "Runtime", "Log", "Network", "Inspector"]) await this.call(`${part}.enable`);
    for (const source of first) await this.call("Page.addScriptToEvaluateOnNewDocument", { source });
  }

  call(method, params = {}, sessionId = this.session) {
    return this.browser.call(method, params, sessionId);
  }

  complaints() {
    const events = this.browser.events.filter(({ sessionId }) => sessionId === this.session);
    // (that a page may not ask whether it is left, which nobody has touched, is none of its faults)
    return Browser.prototype.complaints.call({ events, url: this.url }).filter((words) => !/'beforeunload'/.test(words));
  }

  // Waits for an event of this tab that comes after the first `from` of the browser.
  async heard(method, from, seconds = 60) {
    for (const until = Date.now() + 1000 * seconds; Date.now() < until;) {
      const found = this.browser.events.slice(from).find((event) => event.method === method && event.sessionId === this.session);
      if (found) return found.params;
      await new Promise((done) => setTimeout(done, 5));
    }
    throw new Error(`${method} did not come in ${seconds} seconds`);
  }

  // An expression that is asked while another page comes has no answer, and is asked again.
  async ask(expression) {
    try {
      return await super.ask(expression);
    } catch (fault) {
      if (this.isLeaving && /navigated|context|closed/.test(fault.message)) return null;
      throw fault;
    }
  }

  // Loads the page anew, as a user does by F5; without waiting for it where `isReady` is not wanted.
  async reload(isReady = true) {
    // (one that only begins has nothing yet)
    await this.ask("if (document.body) document.body.dataset.ready = 'no'");
    this.isLeaving = true;
    await this.askReload();
    if (isReady) await this.arrive();
  }

  // Whether the browser hands the mouse to the page.
  async takesMouse(seconds = 10) {
    const moved = this.call("Input.dispatchMouseEvent", { type: "mouseMoved", x: 1, y: 1 }).then(() => true, () => false);
    return Promise.race([moved, new Promise((done) => { setTimeout(() => done(false), 1000 * seconds); })]);
  }

  // Waits until the page that is loaded anew is ready.
  async arrive(seconds = 60) {
    await this.wait("document.body && document.body.dataset.ready === 'yes'", seconds);
    this.isLeaving = false;
  }

  // Ends the page's process at once, even where its script runs without end, and then the tab.
  async crash() {
    const from = this.browser.events.length;
    this.call("Page.crash").catch(() => {});
    await this.heard("Inspector.targetCrashed", from);
    await this.close();
  }

  // Asks for a reload; a page that is just being exchanged for another one cannot take it yet.
  async askReload() {
    for (let left = 200; ; left--) {
      try {
        return await this.call("Page.reload");
      } catch (fault) {
        if (!left || !/Not attached/.test(fault.message)) throw fault;
        await new Promise((done) => setTimeout(done, 20));
      }
    }
  }

  async close() {
    await this.call("Target.closeTarget", { targetId: this.target }, null).catch(() => {});
  }

  // Forgets all that pages of this context have kept.
  async forget() {
    await this.call("Target.disposeBrowserContext", { browserContextId: this.context }, null).catch(() => {});
  }
}

// For the tests of a file: a function that opens a tab, in a browser that all of them share.
export function tabs() {
  let browser = null;
  return async (options = {}) => {
    const page = options.page ?? builtPage();
    browser ??= openBrowser();
    const tab = await Tab.open(await browser, { ...options, page });
    if (!options.context) afterwards(() => tab.forget());
    return tab;
  };
}

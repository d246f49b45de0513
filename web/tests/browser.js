// A headless Chromium, driven over its DevTools protocol by two pipes; no driver, no port and no network is needed.

import { mkdtempSync, rmSync, writeFileSync } from "node:fs";
import { join } from "node:path";
import { pathToFileURL } from "node:url";
import { spawn } from "node:child_process";
import { tmpdir } from "node:os";
import { onPath } from "./on_path.js";

const NAMES = ["chromium", "chromium-browser", "google-chrome-stable", "google-chrome"];
// Keys to which the browser itself has an answer.
const CODES = { Enter: 13, Escape: 27 };
// A browser that is silent for so long is given up.
const SILENT_MS = 180000;

export const chromium = () => onPath(...NAMES);

const pause = (ms) => new Promise((done) => setTimeout(done, ms));

export class Browser {
  // A browser with a page of this file, which is ready when its body says so; `profile` is kept for another start.
  static async open(path, { width = 1280, height = 800, scale = 1, profile = null, isReady = true } = {}) {
    const browser = new Browser();
    await browser.start(profile, width, height, scale);
    await browser.visit(path, isReady);
    return browser;
  }

  constructor() {
    this.number = 0;
    this.waiting = new Map();
    this.events = [];
    this.rest = Buffer.alloc(0);
    this.isOver = false;
  }

  async start(profile, width, height, scale) {
    this.ownsProfile = profile === null;
    this.profile = profile ?? mkdtempSync(join(tmpdir(), "camplot-page-"));
    const words = ["--headless=new", "--remote-debugging-pipe", "--no-sandbox", "--disable-gpu", "--no-first-run",
      "--disable-extensions", "--disable-background-networking", "--hide-scrollbars", `--user-data-dir=${this.profile}`,
      `--window-size=${width},${height}`, `--force-device-scale-factor=${scale}`, "about:blank"];
    this.process = spawn(chromium(), words, { stdio: ["ignore", "ignore", "ignore", "pipe", "pipe"] });
    this.process.on("exit", () => this.fail("the browser ended"));
    this.process.stdio[3].on("error", () => {});
    this.process.stdio[4].on("data", (data) => this.receive(data));
    const { targetInfos } = await this.call("Target.getTargets");
    const { targetId } = targetInfos.find(({ type }) => type === "page");
    this.session = (await this.call("Target.attachToTarget", { targetId, flatten: true })).sessionId;
    await this.call("Emulation.setDeviceMetricsOverride", { width, height, deviceScaleFactor: scale, mobile: false });
    for (const part of ["Page", "Runtime", "Log", "Network"]) await this.call(`${part}.enable`);
  }

  async visit(path, isReady = true) {
    this.url = pathToFileURL(path).href;
    await this.call("Page.navigate", { url: this.url });
    if (isReady) await this.wait("document.body && document.body.dataset.ready === 'yes'");
  }

  // Ends the browser as a crash does, without a word to the page.
  async kill() {
    const ended = new Promise((done) => this.process.once("exit", done));
    this.process.kill("SIGKILL");
    await ended;
  }

  async close() {
    try {
      const ended = new Promise((done) => this.process.once("exit", done));
      await this.call("Browser.close", {}, null);
      await Promise.race([ended, pause(5000)]);
    } catch {
      // It ended already.
    }
    this.process.kill("SIGKILL");
    if (this.ownsProfile) rmSync(this.profile, { recursive: true, force: true, maxRetries: 5, retryDelay: 200 });
  }

  // Nothing more is answered: by the browser, or by the page of a session.
  fail(why, session = null) {
    if (session === null) this.isOver = true;
    for (const [id, waiting] of [...this.waiting]) {
      if (session !== null && waiting.session !== session) continue;
      this.waiting.delete(id);
      waiting.fail(new Error(why));
    }
  }

  receive(data) {
    this.rest = Buffer.concat([this.rest, data]);
    for (let end = this.rest.indexOf(0); end >= 0; end = this.rest.indexOf(0)) {
      const message = JSON.parse(this.rest.subarray(0, end).toString());
      this.rest = this.rest.subarray(end + 1);
      const waiting = this.waiting.get(message.id);
      if (!waiting) {
        this.events.push(message);
        if (message.method === "Target.detachedFromTarget") this.fail("the page was closed", message.params.sessionId);
        if (message.method === "Page.javascriptDialogOpening") {
          this.call("Page.handleJavaScriptDialog", { accept: true }, message.sessionId).catch(() => {});
        }
        continue;
      }
      this.waiting.delete(message.id);
      if (message.error) waiting.fail(new Error(`${waiting.method}: ${JSON.stringify(message.error)}`));
      else waiting.done(message.result);
    }
  }

  call(method, params = {}, sessionId = this.session) {
    const id = ++this.number;
    // One that was killed answers nothing.
    if (this.isOver) return Promise.reject(new Error("the browser ended"));
    return new Promise((done, fail) => {
      const timer = setTimeout(() => fail(new Error(`${method}: the browser was silent`)), SILENT_MS);
      const settle = (end) => (value) => {
        clearTimeout(timer);
        end(value);
      };
      this.waiting.set(id, { method, session: sessionId, done: settle(done), fail: settle(fail) });
      this.process.stdio[3].write(`${JSON.stringify({ id, method, params, sessionId: sessionId ?? undefined })}\0`);
    });
  }

  // The value of an expression in the page, of a promise what it comes to.
  async ask(expression) {
    const reply = await this.call("Runtime.evaluate", { expression, awaitPromise: true, returnByValue: true });
    if (reply.exceptionDetails) {
      throw new Error(`${expression.slice(0, 200)}: ${reply.exceptionDetails.exception?.description ?? "it threw"}`);
    }
    return reply.result.value;
  }

  async wait(expression, seconds = 120) {
    const until = Date.now() + 1000 * seconds;
    while (!await this.ask(expression)) {
      if (Date.now() > until) throw new Error(`not in ${seconds} seconds: ${expression}; ${this.complaints().join("; ")}`);
      await pause(30);
    }
  }

  async mouse(type, x, y, more = {}) {
    await this.call("Input.dispatchMouseEvent", { type, x, y, ...more });
  }

  async click(x, y, modifiers = 0) {
    await this.mouse("mouseMoved", x, y);
    await this.mouse("mousePressed", x, y, { button: "left", clickCount: 1, modifiers });
    await this.mouse("mouseReleased", x, y, { button: "left", clickCount: 1, modifiers });
  }

  async drag([x0, y0], [x1, y1], button = "left") {
    const buttons = { left: 1, right: 2, middle: 4 }[button];
    await this.mouse("mouseMoved", x0, y0);
    await this.mouse("mousePressed", x0, y0, { button, clickCount: 1 });
    for (const part of [0.5, 1]) {
      await this.mouse("mouseMoved", x0 + (x1 - x0) * part, y0 + (y1 - y0) * part, { button, buttons });
    }
    await this.mouse("mouseReleased", x1, y1, { button, clickCount: 1 });
  }

  // A key by its name, with Ctrl (2) or Shift (8) in `modifiers`, held until it was repeated so many times.
  async key(key, modifiers = 0, repeats = 0) {
    const text = key.length === 1 && !(modifiers & 2) ? key : undefined;
    const more = { text: key === "Enter" ? "\r" : text, windowsVirtualKeyCode: CODES[key] };
    const down = (autoRepeat) => this.call("Input.dispatchKeyEvent", { type: "keyDown", key, modifiers, autoRepeat, ...more });
    await Promise.all([down(false), ...Array.from({ length: repeats }, () => down(true))]);
    await this.call("Input.dispatchKeyEvent", { type: "keyUp", key, modifiers });
  }

  // Drops files and folders of these paths on the page, as a person does.
  async drop(...files) {
    const data = { items: [], files, dragOperationsMask: 1 };
    for (const type of ["dragEnter", "dragOver", "drop"]) await this.call("Input.dispatchDragEvent", { type, x: 400, y: 300, data });
  }

  async type(text) {
    await this.call("Input.insertText", { text });
  }

  async screenshot(path) {
    const { data } = await this.call("Page.captureScreenshot", { format: "png" });
    writeFileSync(path, Buffer.from(data, "base64"));
  }

  // What the page threw or was told off for, and what it asked of the network.
  complaints() {
    const found = [];
    for (const { method, params } of this.events) {
      if (method === "Runtime.exceptionThrown") {
        found.push(params.exceptionDetails.exception?.description ?? JSON.stringify(params.exceptionDetails));
      } else if (method === "Log.entryAdded" && params.entry.level === "error") {
        found.push(`${params.entry.text} ${params.entry.url ?? ""}`);
      } else if (method === "Network.requestWillBeSent" && params.request.url !== this.url
        && !/^(data|blob):/.test(params.request.url)) {
        found.push(params.request.url);
      }
    }
    return found;
  }
}

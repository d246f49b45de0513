// A browser that is driven by the commands of W3C's WebDriver, whatever carries them. Its calls are those of Browser
// (browser.js), so hands.js and seen.js serve both.

import { existsSync, mkdirSync, mkdtempSync, readFileSync, readdirSync, rmSync, writeFileSync } from "node:fs";
import { join } from "node:path";
import { pathToFileURL } from "node:url";
import { tmpdir } from "node:os";

// The key under which an element's reference stands.
const ELEMENT = "element-6066-11e4-a52e-4f735466cecf";
// Keys without a character, by WebDriver's numbers for them.
const KEYS = { Backspace: "\ue003", Enter: "\ue007", Shift: "\ue008", Control: "\ue009", Escape: "\ue00c", ArrowLeft: "\ue012",
  ArrowUp: "\ue013", ArrowRight: "\ue014", ArrowDown: "\ue015", Delete: "\ue017" };
// The bits of modifiers, as in browser.js.
const MODIFIERS = [[2, KEYS.Control], [8, KEYS.Shift]];
const BUTTONS = { left: 0, middle: 1, right: 2 };
// A browser that is silent for so long is given up.
export const SILENT_MS = 180000;

export const pause = (ms) => new Promise((done) => setTimeout(done, ms));

// Asks again and again until there is something.
export async function until(seconds, what, look) {
  for (const end = Date.now() + 1000 * seconds; ;) {
    const found = await look();
    if (found) return found;
    if (Date.now() > end) throw new Error(`not in ${seconds} seconds: ${what}`);
    await pause(20);
  }
}

// Ends a process that was started here, and waits for that.
export async function ended(child) {
  if (!child || child.exitCode !== null || child.signalCode !== null) return;
  const over = new Promise((done) => child.once("exit", done));
  child.kill();
  const timer = setTimeout(() => child.kill("SIGKILL"), 5000);
  await over;
  clearTimeout(timer);
}

function isRemoved(folder) {
  try {
    rmSync(folder, { recursive: true, force: true });
    return true;
  } catch {
    return false;
  }
}

export class WebDriver {
  // A browser with a page of this file, which is ready when its body says so. A folder that is given is kept.
  static async open(path, { folder = null, isReady = true } = {}) {
    const browser = new this(folder ?? mkdtempSync(join(tmpdir(), "camplot-driven-")), folder === null);
    try {
      await browser.start();
      await browser.send("SetWindowRect", { x: 0, y: 0, width: 1280, height: 800 });
      await browser.visit(path, isReady);
    } catch (fault) {
      await browser.close();
      throw fault;
    }
    return browser;
  }

  // Its folder has all that the browser writes; what it downloads, in a folder of its own there.
  constructor(folder, isOwned) {
    Object.assign(this, { folder, isOwned, downloads: join(folder, "downloads") });
    mkdirSync(this.downloads, { recursive: true });
  }

  async visit(path, isReady = true) {
    await this.send("NavigateTo", { url: pathToFileURL(path).href });
    if (isReady) await this.arrive();
  }

  arrive() {
    return this.wait("document.body && document.body.dataset.ready === 'yes'", 60);
  }

  // Loads the page anew, as a user does by F5.
  async reload() {
    await this.send("Refresh");
    await this.arrive();
  }

  async close() {
    await this.stop();
    // (its other processes may write for a moment yet)
    if (this.isOwned) await until(60, `${this.folder} is removed`, () => isRemoved(this.folder));
  }

  // The value of an expression in the page, of a promise what it comes to.
  async ask(expression) {
    const script = `const told = arguments[arguments.length - 1];
      (async () => (${expression}\n))().then((value) => told(JSON.stringify({ value })),
        (fault) => told(JSON.stringify({ fault: String(fault) + "\\n" + (fault?.stack ?? "") })));`;
    const { value, fault } = JSON.parse(await this.send("ExecuteAsyncScript", { script, args: [] }));
    if (fault !== undefined) throw new Error(`${expression.slice(0, 200)}: ${fault}`);
    return value;
  }

  wait(expression, seconds = 60) {
    return until(seconds, expression, () => this.ask(expression));
  }

  // Hands files over to a field for files, as its dialogue does.
  async give(selector, paths) {
    const found = await this.send("FindElement", { using: "css selector", value: selector });
    await this.send("ElementSendKeys", { id: found[ELEMENT], text: paths.join("\n") });
  }

  // What a pointer does while keys are held.
  async pointer(actions, modifiers = 0) {
    const held = MODIFIERS.filter(([bit]) => modifiers & bit).map(([, value]) => value);
    if (held.length) await this.keys(held.map((value) => ({ type: "keyDown", value })));
    await this.send("PerformActions", { actions: [{ type: "pointer", id: "mouse", parameters: { pointerType: "mouse" }, actions }] });
    if (held.length) await this.keys(held.map((value) => ({ type: "keyUp", value })));
  }

  keys(actions) {
    return this.send("PerformActions", { actions: [{ type: "key", id: "keyboard", actions }] });
  }

  async click(x, y, modifiers = 0) {
    await this.pointer([move(x, y), { type: "pointerDown", button: 0 }, { type: "pointerUp", button: 0 }], modifiers);
  }

  async drag(from, to, name = "left") {
    const button = BUTTONS[name], middle = from.map((at, k) => (at + to[k]) / 2);
    await this.pointer([move(...from), { type: "pointerDown", button }, move(...middle), move(...to), { type: "pointerUp", button }]);
  }

  // A key by its name, with Ctrl (2) or Shift (8) in `modifiers`.
  async key(key, modifiers = 0) {
    const strokes = [...MODIFIERS.filter(([bit]) => modifiers & bit).map(([, value]) => value), KEYS[key] ?? key];
    await this.keys([...strokes.map((value) => ({ type: "keyDown", value })),
      ...strokes.reverse().map((value) => ({ type: "keyUp", value }))]);
  }

  async type(text) {
    await this.keys([...text].flatMap((value) => [{ type: "keyDown", value }, { type: "keyUp", value }]));
  }

  async screenshot(path) {
    writeFileSync(path, Buffer.from(await this.send("TakeScreenshot"), "base64"));
  }

  // Does something that saves a file; its name, and the bytes that the browser puts on the disk under it.
  async saving(act) {
    for (const name of readdirSync(this.downloads)) rmSync(join(this.downloads, name), { force: true });
    await this.ask("camplot.saved.blob = null");
    await act();
    await this.wait("camplot.saved.blob !== null");
    const name = await this.ask("camplot.saved.name");
    return { name, bytes: await this.whole(join(this.downloads, name)) };
  }

  // The bytes of a file that does not grow any more.
  async whole(path) {
    let before = null;
    await until(60, `${path} is whole`, async () => {
      const now = existsSync(path) ? readFileSync(path) : null, isStill = now !== null && before !== null && now.equals(before);
      before = now;
      await pause(50);
      return isStill && now.length > 0;
    });
    return before;
  }

  // What failed in the page by its own word.
  complaints() {
    return this.ask("globalThis.camplot?.state.faults ?? []");
  }
}

const move = (x, y) => ({ type: "pointerMove", duration: 0, x: Math.round(x), y: Math.round(y), origin: "viewport" });

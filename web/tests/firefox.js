// A headless Firefox, driven over its own protocol, Marionette: WebDriver's commands as JSON over a socket of this machine.

import { connect } from "node:net";
import { existsSync, mkdirSync, readFileSync, rmSync, writeFileSync } from "node:fs";
import { join } from "node:path";
import { spawn } from "node:child_process";
import { SILENT_MS, WebDriver, ended, until } from "./webdriver.js";
import { onPath } from "./on_path.js";

// Commands whose name is not WebDriver's own.
const NAMES = { NavigateTo: "WebDriver:Navigate", Quit: "Marionette:Quit" };

export class Firefox extends WebDriver {
  static title = "Firefox";

  // What is missing to run it, by Debian's package; null where nothing is.
  static lacks() {
    return onPath("firefox-esr", "firefox") ? null : "firefox-esr";
  }

  async start() {
    const profile = join(this.folder, "profile"), port = join(profile, "MarionetteActivePort");
    mkdirSync(profile, { recursive: true });
    rmSync(port, { force: true });
    this.choose(profile, { "marionette.port": 0, "browser.download.folderList": 2, "browser.download.dir": this.downloads,
      "browser.download.always_ask_before_handling_new_types": false });
    const words = ["--headless", "--marionette", "--no-remote", "-profile", profile];
    this.process = spawn(onPath("firefox-esr", "firefox"), words,
      { stdio: "ignore", env: { ...process.env, HOME: this.folder, MOZ_CRASHREPORTER_DISABLE: "1" } });
    await until(60, "Firefox names its port", () => existsSync(port) && readFileSync(port, "utf8").trim());
    await this.reach(Number(readFileSync(port, "utf8")));
    const { capabilities } = await this.send("NewSession", { timeouts: { script: SILENT_MS, pageLoad: SILENT_MS, implicit: 0 } });
    this.version = capabilities.browserVersion;
  }

  choose(profile, choices) {
    const lines = Object.entries(choices).map(([name, value]) => `user_pref(${JSON.stringify(name)}, ${JSON.stringify(value)});\n`);
    writeFileSync(join(profile, "user.js"), lines.join(""));
  }

  // Connects, and waits for its greeting.
  async reach(port) {
    Object.assign(this, { number: 0, waiting: new Map(), rest: Buffer.alloc(0), isOver: false });
    this.socket = connect(port, "127.0.0.1");
    const greeted = new Promise((done, fail) => {
      this.greet = done;
      this.socket.on("error", fail);
    });
    this.socket.on("data", (data) => this.receive(data));
    this.socket.on("close", () => {
      this.isOver = true;
      for (const { fail } of this.waiting.values()) fail(new Error("the browser ended"));
    });
    await greeted;
  }

  // A message is its length in bytes, a colon, and JSON.
  receive(data) {
    this.rest = Buffer.concat([this.rest, data]);
    for (;;) {
      const colon = this.rest.indexOf(":"), end = colon + 1 + Number(this.rest.toString("latin1", 0, Math.max(colon, 0)));
      if (colon < 0 || this.rest.length < end) return;
      const message = JSON.parse(this.rest.toString("utf8", colon + 1, end));
      this.rest = this.rest.subarray(end);
      if (Array.isArray(message)) this.answered(message);
      else this.greet();
    }
  }

  answered([, number, fault, result]) {
    const { name, done, fail } = this.waiting.get(number);
    this.waiting.delete(number);
    if (fault) fail(new Error(`${name}: ${fault.error}: ${fault.message}`));
    else done(result !== null && "value" in result ? result.value : result);
  }

  send(command, words = {}) {
    if (this.isOver) return Promise.reject(new Error("the browser ended"));
    const number = ++this.number, name = NAMES[command] ?? `WebDriver:${command}`;
    const text = Buffer.from(JSON.stringify([0, number, name, words]));
    return new Promise((done, fail) => {
      const timer = setTimeout(() => fail(new Error(`${name}: the browser was silent`)), SILENT_MS);
      const settle = (end) => (value) => {
        clearTimeout(timer);
        end(value);
      };
      this.waiting.set(number, { name, done: settle(done), fail: settle(fail) });
      this.socket.write(Buffer.concat([Buffer.from(`${text.length}:`), text]));
    });
  }

  // Ends it as a crash does, without a word to the page.
  async kill() {
    const over = new Promise((done) => this.process.once("exit", done));
    this.process.kill("SIGKILL");
    await over;
  }

  async stop() {
    const over = new Promise((done) => this.process?.once("exit", done));
    if (this.socket && !this.isOver) {
      await this.send("Quit", { flags: ["eForceQuit"] }).catch(() => {});
      await Promise.race([over, new Promise((done) => setTimeout(done, 5000))]);
    }
    await ended(this.process);
    this.socket?.destroy();
  }
}

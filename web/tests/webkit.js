// WebKitGTK's MiniBrowser on a display without a screen, driven by WebKitWebDriver over HTTP.

import { createServer } from "node:net";
import { mkdirSync, writeFileSync } from "node:fs";
import { join } from "node:path";
import { request } from "node:http";
import { spawn } from "node:child_process";
import { SILENT_MS, WebDriver, ended, until } from "./webdriver.js";
import { onPath } from "./on_path.js";

// Commands with their methods and paths below the session.
const ROUTES = { NavigateTo: ["POST", "url"], Refresh: ["POST", "refresh"], ExecuteAsyncScript: ["POST", "execute/async"],
  FindElement: ["POST", "element"], ElementSendKeys: ["POST", "element/{id}/value"], PerformActions: ["POST", "actions"],
  TakeScreenshot: ["GET", "screenshot"], SetWindowRect: ["POST", "window/rect"], DeleteSession: ["DELETE", ""] };

// A port that nobody has.
const freePort = () => new Promise((done, fail) => {
  const server = createServer().once("error", fail).listen(0, "127.0.0.1", () => {
    const { port } = server.address();
    server.close(() => done(port));
  });
});

export class WebKit extends WebDriver {
  static title = "WebKitGTK";

  static lacks() {
    if (!onPath("WebKitWebDriver")) return "webkit2gtk-driver";
    return onPath("Xvfb") ? null : "xvfb";
  }

  async start() {
    const display = await this.startDisplay(), home = join(this.folder, "home"), config = join(home, ".config");
    mkdirSync(config, { recursive: true });
    writeFileSync(join(config, "user-dirs.dirs"), `XDG_DOWNLOAD_DIR="${this.downloads}"\n`);
    this.port = await freePort();
    this.driver = spawn(onPath("WebKitWebDriver"), [`--port=${this.port}`], { stdio: "ignore",
      env: { ...process.env, DISPLAY: `:${display}`, HOME: home, XDG_CONFIG_HOME: config, XDG_DATA_HOME: join(home, "data"),
        XDG_CACHE_HOME: join(home, "cache"), GDK_BACKEND: "x11", NO_AT_BRIDGE: "1" } });
    await until(60, "WebKitWebDriver answers", () => this.http("GET", "/status").then(({ ready }) => ready, () => false));
    const { sessionId, capabilities } = await this.http("POST", "/session", { capabilities: { alwaysMatch:
      { timeouts: { script: SILENT_MS, pageLoad: SILENT_MS } } } });
    this.session = sessionId;
    this.version = capabilities.browserVersion;
  }

  // Starts a display, and answers its number, which it tells itself.
  async startDisplay() {
    this.display = spawn(onPath("Xvfb"), ["-displayfd", "3", "-screen", "0", "1280x900x24", "-nolisten", "tcp"],
      { stdio: ["ignore", "ignore", "ignore", "pipe"] });
    let told = "";
    this.display.stdio[3].on("data", (data) => { told += data; });
    return until(60, "Xvfb names its display", () => told.endsWith("\n") && told.trim());
  }

  http(method, path, body = null) {
    return new Promise((done, fail) => {
      const asked = request({ host: "127.0.0.1", port: this.port, method, path, timeout: SILENT_MS,
        headers: { "Content-Type": "application/json" } }, (answer) => {
        const parts = [];
        answer.on("data", (part) => parts.push(part)).on("error", fail).on("end", () => {
          const { value } = JSON.parse(Buffer.concat(parts).toString());
          if (answer.statusCode === 200) done(value);
          else fail(new Error(`${method} ${path}: ${value?.error}: ${value?.message}`));
        });
      });
      asked.on("error", fail).on("timeout", () => asked.destroy(new Error(`${method} ${path}: the browser was silent`)));
      asked.end(body === null ? undefined : JSON.stringify(body));
    });
  }

  send(command, { id, ...words } = {}) {
    const [method, path] = ROUTES[command];
    return this.http(method, `/session/${this.session}/${path.replace("{id}", id)}`.replace(/\/$/, ""),
      method === "POST" ? words : null);
  }

  async stop() {
    if (this.session) await this.send("DeleteSession").catch(() => {});
    await ended(this.driver);
    await ended(this.display);
  }
}

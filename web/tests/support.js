// What the tests of the page share: the page, a browser with it, files for it, and the program beside it.

import { existsSync, mkdtempSync, readFileSync, readdirSync, rmSync } from "node:fs";
import { dirname, join } from "node:path";
import { fileURLToPath } from "node:url";
import { execFileSync, spawnSync } from "node:child_process";
import { tmpdir } from "node:os";
import { Browser, chromium } from "./browser.js";
import { afterwards, skip } from "../../tools/tests/harness.js";

export const REPOSITORY = dirname(dirname(dirname(fileURLToPath(import.meta.url))));
export const EXAMPLES = join(REPOSITORY, "examples");

export const MODULE = process.env.STATION_MODULE ?? join(REPOSITORY, "web", "out", "station.wasm");

export function room() {
  const folder = mkdtempSync(join(tmpdir(), "camplot-page-"));
  afterwards(() => rmSync(folder, { recursive: true, force: true, maxRetries: 5, retryDelay: 200 }));
  return folder;
}

// A page that was built already, by its path in STATION_PAGE, in place of one that is built here.
let page = process.env.STATION_PAGE ?? null;

// The built page; the test is left out where Chromium or the module is missing.
export function builtPage() {
  if (!chromium()) skip("no chromium is at hand, so the page is not tried");
  return pageForAny();
}

// The same, whatever browser is to show it.
export function pageForAny() {
  if (page) return page;
  if (!existsSync(MODULE)) skip("web/out/station.wasm is not built, so the page is not tried");
  page = join(mkdtempSync(join(tmpdir(), "camplot-built-")), "camplot.html");
  process.on("exit", () => rmSync(dirname(page), { recursive: true, force: true }));
  execFileSync(join(REPOSITORY, "web", "build"), ["--module", MODULE, page], { stdio: "pipe" });
  return page;
}

export async function openPage(options = {}) {
  const browser = await Browser.open(options.page ?? builtPage(), options);
  afterwards(() => browser.close());
  return browser;
}

export const filesOf = (folder) => readdirSync(folder).sort()
  .filter((name) => /\.(gbr|drl)$/.test(name)).map((name) => ({ name, bytes: readFileSync(join(folder, name)) }));

// Opens files as a drop does.
export async function give(browser, files, areNamed = false) {
  const list = files.map(({ name, bytes }) => `{ name: ${JSON.stringify(name)}, bytes: Uint8Array.from(atob("${
    Buffer.from(bytes).toString("base64")}"), (letter) => letter.charCodeAt(0)) }`);
  return browser.ask(`camplot.openFiles([${list.join(", ")}], ${areNamed}).then(({ opened, refused }) => `
    + "({ opened, refused: refused.map(({ reply }) => reply) }))");
}

export const gerber = (...objects) => Buffer.from(`%FSLAX46Y46*%\n%MOMM*%\n%ADD10C,1.000000*%\n%ADD11R,2.000000X1.000000*%\n`
  + `G01*\nG75*\nD10*\n${objects.join("\n")}\nM02*\n`);

// Waits until all that is in view is drawn.
export const settle = (browser) =>
  browser.wait("camplot.view.isSettled && !camplot.view.isPainting");

// Where a point in nm lies on the page.
export async function onPage(browser, x, y) {
  return JSON.parse(await browser.ask(`(() => {
    const box = document.getElementById("marks").getBoundingClientRect(), at = camplot.view.placeOf(${x}, ${y});
    return JSON.stringify([box.left + at.x / camplot.view.density, box.top + at.y / camplot.view.density]);
  })()`));
}

export const lines = (browser) => browser.ask("camplot.told.map(({ line, reply }) => `${line} -> ${reply}`)");

export const text = (browser, id) => browser.ask(`document.getElementById("${id}").textContent`);

// A gesture through the page's own script, and its replies.
export const run = (browser, ...given) =>
  browser.ask(`camplot.run(${JSON.stringify(given)}).then(({ answers }) => answers.map(({ reply }) => reply))`);

// The canonical text of a layer now.
export const written = (browser, name) => browser.ask(`camplot.run(["write ${name} written/${name}"])`
  + ".then(({ answers }) => new TextDecoder().decode(answers[0].bytes))");

// What was saved last: its name, and its bytes.
export async function savedFile(browser) {
  await browser.wait("camplot.saved.blob !== null");
  const { name, data } = await browser.ask(`camplot.saved.blob.arrayBuffer().then((buffer) => ({ name: camplot.saved.name,
    data: btoa(Array.from(new Uint8Array(buffer), (byte) => String.fromCharCode(byte)).join("")) }))`);
  await browser.ask("camplot.saved.blob = null");
  return { name, bytes: Buffer.from(data, "base64") };
}

export function program() {
  const path = process.env.CAMPLOT;
  if (!path || !existsSync(path)) skip("the program is not built");
  return path;
}

export const runProgram = (folder, script, words = []) =>
  spawnSync(program(), [script, ...words], { cwd: folder, encoding: "latin1", maxBuffer: 2 ** 30 });

// Modifiers of keys and clicks.
export const CTRL = 2, SHIFT = 8;
export const PAD = [117937500, -85000000];
export const kicad = () => filesOf(join(EXAMPLES, "kicad"));
export const last = (list, count) => list.slice(list.length - count);
export const picked = (browser) => browser.ask("camplot.state.picked.map(({ name, place, words }) => `${name} ${place} ${words}`)");

export async function withBoard() {
  const browser = await openPage();
  await give(browser, kicad());
  await settle(browser);
  return browser;
}

// Four pads of 1 mm in a row, 2 mm apart, from (0, 0).
export async function withPads() {
  const browser = await openPage();
  await give(browser, [{ name: "pads.gtl", bytes: gerber(...[0, 2, 4, 6].map((x) => `X${x}000000Y0D03*`)) }]);
  await settle(browser);
  return browser;
}

export async function clickAt(browser, x, y, modifiers = 0) {
  await browser.click(...await onPage(browser, x, y), modifiers);
}

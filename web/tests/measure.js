// Measures the module and the page, and the program outside in the same run, and prints tables.
//
//   node web/tests/measure.js [--browser firefox|webkit] PROGRAM [MODULE.wasm] [FILE.gbr..]
//
// It measures in Chromium if no other browser is named. The files are plotted too, beside those that are made here.

import { gzipSync } from "node:zlib";
import { mkdtempSync, readFileSync, rmSync, statSync, writeFileSync } from "node:fs";
import { basename, dirname, join, resolve } from "node:path";
import { execFileSync, spawnSync } from "node:child_process";
import { fileURLToPath } from "node:url";
import { tmpdir } from "node:os";
import { Browser } from "./browser.js";
import { Firefox } from "./firefox.js";
import { WebKit } from "./webkit.js";
import { inlined } from "../building/inline.js";

const web = dirname(dirname(fileURLToPath(import.meta.url)));
const words = process.argv.slice(2), [, named] = words[0] === "--browser" ? words.splice(0, 2) : [];
const [given, module = join(web, "out", "station.wasm"), ...files] = words;
const driver = { chromium: Browser, firefox: Firefox, webkit: WebKit }[named ?? "chromium"];
const program = resolve(given);
const folder = mkdtempSync(join(tmpdir(), "camplot-measure-"));
process.on("exit", () => rmSync(folder, { recursive: true, force: true }));

const base64 = (bytes) => Buffer.from(bytes).toString("base64");
const head = "%FSLAX46Y46*%\n%MOMM*%\n%ADD10C,0.050000*%\n%ADD11C,0.100000*%\nG01*\nG75*\nD10*\n";

// A square of 100 mm full of circles, or of short draws.
function made(count, kind, offset = 0) {
  const side = Math.ceil(Math.sqrt(count)), step = Math.floor(1e8 / side), rows = [head];
  for (let k = 0; k < count; k++) {
    const x = k % side * step + offset, y = Math.floor(k / side) * step + offset;
    rows.push(kind === "draws" ? `X${x}Y${y}D02*\nX${x + Math.floor(step * 0.6)}Y${y}D01*\n` : `X${x}Y${y}D03*\n`);
  }
  rows.push("M02*\n");
  return Buffer.from(rows.join(""));
}

const WINDOW = "window -1000000 -1000000 25000 4080 4080";

// The least of three runs of the program, in ms.
function outside(lines) {
  writeFileSync(join(folder, "script"), `${lines.join("\n")}\n`);
  let least = Infinity;
  for (let turn = 0; turn < 3; turn++) {
    const start = process.hrtime.bigint();
    const { status } = spawnSync(program, ["script"], { cwd: folder });
    if (status !== 0) throw new Error(`the program ended with ${status}`);
    least = Math.min(least, Number(process.hrtime.bigint() - start) / 1e6);
  }
  return least;
}

async function moduleTable() {
  const page = join(folder, "station.html");
  writeFileSync(page, `<!DOCTYPE html><meta charset="utf-8"><body><script type="text/plain" data-module="32">${
    base64(gzipSync(readFileSync(module)))}</script><script>${inlined(join(web, "tests", "scripts_page.js"))}</script>`);
  const browser = await driver.open(page);
  console.log("| file | load, ms | plot, ms | edit with redraw, ms | memory, MB | outside: start, load and plot, ms | ratio |");
  console.log("|---|---|---|---|---|---|---|");
  const list = [["100,000 circles", made(1e5, "circles")], ["1,000,000 circles", made(1e6, "circles")],
    ["100,000 draws", made(1e5, "draws")], ["1,000,000 draws", made(1e6, "draws")],
    ...files.map((path) => [basename(path), readFileSync(path)])];
  for (const [name, bytes] of list) {
    writeFileSync(join(folder, "a.gbr"), bytes);
    await browser.ask("window.parts = []");
    for (let at = 0; at < bytes.length; at += 3e6) {
      await browser.ask(`parts.push(Uint8Array.from(atob("${base64(bytes.subarray(at, at + 3e6))}"), (x) => x.charCodeAt(0)))`);
    }
    const told = await browser.ask(`new Blob(parts).arrayBuffer().then((buffer) => {
      const file = new Uint8Array(buffer), code = (line) => Uint8Array.from(line, (x) => x.charCodeAt(0));
      const ms = (run) => { const start = performance.now(); run(); return performance.now() - start; };
      let least = null;
      for (let turn = 0; turn < 2; turn++) {
        const station = new Station(compiled, 100);
        const load = ms(() => { if (station.apply(code("load top gerber a.gbr"), file)) throw new Error("not loaded"); });
        station.apply(code("${WINDOW}"));
        const plot = ms(() => station.apply(code("plot top a.pbm")));
        const edit = ms(() => { for (let k = 0; k < 50; k++) {
          station.apply(code("move top 0 " + (k % 2 ? -100000 : 100000) + " 0"));
          station.redraw(1000);
        } }) / 50;
        if (!least || load + plot < least.load + least.plot) least = { load, plot, edit, memory: station.memory };
        station.close();
      }
      return least;
    })`);
    const whole = outside(["load top gerber a.gbr", WINDOW, "plot top a.pbm"]);
    console.log(`| ${name} | ${told.load.toFixed(0)} | ${told.plot.toFixed(0)} | ${told.edit.toFixed(2)} | ${
      (told.memory / 2 ** 20).toFixed(0)} | ${whole.toFixed(0)} | ${((told.load + told.plot) / whole).toFixed(2)} |`);
  }
  await browser.close();
}

async function give(browser, files) {
  await browser.ask("window.given = []");
  for (const { name, bytes } of files) {
    await browser.ask("window.parts = []");
    for (let at = 0; at < bytes.length; at += 3e6) {
      await browser.ask(`parts.push(Uint8Array.from(atob("${base64(bytes.subarray(at, at + 3e6))}"), (x) => x.charCodeAt(0)))`);
    }
    await browser.ask(`new Blob(parts).arrayBuffer().then((b) => { given.push({ name: "${name}", bytes: new Uint8Array(b) }); })`);
  }
}

const SETTLED = `new Promise((done) => { const look = () => camplot.view.isWhole && !camplot.view.isWanted
  && !camplot.view.isPainting ? done() : setTimeout(look, 2); setTimeout(look, 20); })`;

// Opens, pans for two seconds with each frame, moves an item, and takes that back.
async function pageRow(page, name, files, window = {}) {
  const browser = await driver.open(page, window);
  await give(browser, files);
  const open = await browser.ask(`(async () => { const start = performance.now(); await camplot.openFiles(given, false);
    camplot.machine.send({ kind: "show", name: null, isShown: true });
    await ${SETTLED}; return performance.now() - start; })()`);
  const frames = await browser.ask(`(async () => {
    const before = camplot.view.frames, start = performance.now();
    let longest = 0, last = start;
    while (performance.now() - start < 2000) {
      camplot.view.pan(3, 2);
      await new Promise(requestAnimationFrame);
      longest = Math.max(longest, performance.now() - last);
      last = performance.now();
    }
    return { rate: (camplot.view.frames - before) / (performance.now() - start) * 1000, longest };
  })()`);
  await browser.ask(SETTLED);
  const edit = await browser.ask(`(async () => { const start = performance.now();
    await camplot.run(["move top 0 500000 0"]); await ${SETTLED}; return performance.now() - start - 20; })()`);
  const undo = await browser.ask(`(async () => { const start = performance.now();
    await camplot.run(["undo"]); await ${SETTLED}; return performance.now() - start - 20; })()`);
  await browser.close();
  const names = files.map(({ name: file, bytes }, at) => {
    writeFileSync(join(folder, file), bytes);
    return `load l${at} gerber ${file}`;
  });
  const whole = outside([...names, "window -1000000 -1000000 60000 1700 1700", ...names.map((_, at) => `plot l${at} ${at}.pbm`)]);
  console.log(`| ${name} | ${open.toFixed(0)} | ${frames.rate.toFixed(0)} | ${frames.longest.toFixed(0)} | ${edit.toFixed(0)} | ${
    undo.toFixed(0)} | ${whole.toFixed(0)} |`);
}

async function pageTable() {
  const page = join(folder, "camplot.html");
  execFileSync(join(web, "build"), ["--module", module, page], { stdio: "pipe" });
  console.log(`\nThe module has ${statSync(module).size} bytes, ${gzipSync(readFileSync(module), { level: 9 }).length} packed; the page ${
    statSync(page).size}.\n`);
  console.log("| board | open, ms | frames a second in a pan | longest frame, ms | edit, ms | undo, ms | outside, load and plot, ms |");
  console.log("|---|---|---|---|---|---|---|");
  const many = Array.from({ length: 20 }, (_, at) => ({
    name: at === 0 ? "board-F_Cu.gbr" : `board-In${at}_Cu.gbr`, bytes: made(5000, at % 2 ? "draws" : "circles", at * 20000),
  }));
  await pageRow(page, "20 layers, 100,000 items", many);
  // Windows of other sizes are Chromium's own.
  if (driver === Browser) {
    await pageRow(page, "the same at twice the pixels", many, { width: 1280, height: 800, scale: 2 });
    await pageRow(page, "the same in 3,840 by 2,160", many, { width: 3840, height: 2160 });
  }
  await pageRow(page, "1 layer, 1,000,000 flashes", [{ name: "board-F_Cu.gbr", bytes: made(1e6, "circles") }]);
}

await moduleTable();
await pageTable();

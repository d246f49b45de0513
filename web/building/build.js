// Puts the page together: one file with the module, the worker and the page's own code in it, under a policy that allows
// these by their sums, and nothing else: no network, no other code, no form.

import { createHash } from "node:crypto";
import { gzipSync } from "node:zlib";
import { readFileSync, readdirSync, writeFileSync } from "node:fs";
import { dirname, join } from "node:path";
import { fileURLToPath } from "node:url";
import { inlined } from "./inline.js";
import { packed } from "./contents.js";
import { refusalsOf } from "./refusals.js";

const web = dirname(dirname(fileURLToPath(import.meta.url)));
/** @type {(path: string) => string} */
const read = (path) => readFileSync(join(web, path), "utf8");

/** @type {(text: string) => string} */
const sum = (text) => `'sha256-${createHash("sha256").update(text).digest("base64")}'`;

/**
 * A text in an element of the page ends where the first end of that element stands in it.
 * @param {string} text
 * @param {string} element
 */
function within(text, element) {
  if (new RegExp(`</${element}|<!--`, "i").test(text)) throw new Error(`a text holds the end of its ${element}`);
  return text;
}

/** @type {(value: unknown) => string} */
const json = (value) => JSON.stringify(value).replace(/</g, "\\u003c");

// In this order: of two rules that are as strong as one another the later one holds.
const STYLES = ["roles", "frame", "board", "panels", "telling", "compared", "windows"];

// The board of examples/kicad, which a page opens for who has none at hand.
function exampleFiles() {
  const folder = join(web, "../examples/kicad");
  const names = /** @type {string[]} */ (readdirSync(folder)).filter((name) => /\.(gbr|drl)$/.test(name)).sort();
  return { files: names.map((name) => packed(/** @type {{ bytes: Uint8Array }} */ ({ name, bytes: readFileSync(join(folder, name)) }))) };
}

/** @param {string} text */
const asText = (text) => text.trim().replace(/&/g, "&amp;").replace(/</g, "&lt;");

/** @param {Uint8Array} module @returns {string} */
function pageOf(module) {
  const style = within(STYLES.map((name) => read(`page/style/${name}.css`)).join("\n"), "style");
  const script = within(inlined(join(web, "page/main.js")), "script");
  const worker = within(inlined(join(web, "worker/main.js")), "script");
  const netsWorker = within(inlined(join(web, "worker/nets_worker.js")), "script");
  // (what is seldom needed is unpacked when it is)
  /** @param {string} name */
  const packed = (name) => gzipSync(inlined(join(web, `worker/${name}_worker.js`)), { level: 9 }).toString("base64");
  const convertingWorker = packed("converting"), comparingWorker = packed("comparing");
  const policy = ["default-src 'none'", `script-src ${sum(script)} 'wasm-unsafe-eval'`, `style-src ${sum(style)}`,
    "worker-src blob:", "base-uri 'none'", "form-action 'none'"].join("; ");
  /** @type {Record<string, string>} */
  const parts = {
    policy, style, script, worker, netsWorker, convertingWorker, comparingWorker, module: gzipSync(module, { level: 9 }).toString("base64"),
    refusals: json(refusalsOf(read("../docs/refusals.md"))), contents: "null",
    example: json(exampleFiles()), notice: asText(read("page/icons.txt")),
  };
  return read("page/index.html").replace(/\{(\w+)\}/g, (/** @type {string} */ whole, /** @type {string} */ name) => parts[name] ?? whole);
}

const [module, out] = process.argv.slice(2);
if (!module || !out) throw new Error("the call has no module, or no path of the page");
const page = pageOf(readFileSync(module));
writeFileSync(out, page);
console.log(`${out}: ${page.length} bytes`);

// What the page hands out, as the browser puts it on the disk, and the program over it.

import { mkdirSync, readFileSync, rmSync, writeFileSync } from "node:fs";
import { dirname, join } from "node:path";
import { spawnSync } from "node:child_process";
import { inflateRawSync } from "node:zlib";
import { program, room } from "./support.js";
import { savedPaths } from "../machine/saved_names.js";

// The files of a ZIP: a Map of their bytes by their names.
export function unzipped(bytes) {
  const files = new Map(), end = bytes.lastIndexOf(Buffer.from("PK\x05\x06", "latin1"));
  let at = bytes.readUInt32LE(end + 16);
  for (let count = bytes.readUInt16LE(end + 10); count > 0; count--) {
    const method = bytes.readUInt16LE(at + 10), size = bytes.readUInt32LE(at + 20), length = bytes.readUInt16LE(at + 28);
    const name = bytes.toString("utf8", at + 46, at + 46 + length), local = bytes.readUInt32LE(at + 42);
    const from = local + 30 + bytes.readUInt16LE(local + 26) + bytes.readUInt16LE(local + 28);
    const packed = bytes.subarray(from, from + size);
    if (files.has(name)) throw new Error(`the ZIP has ${name} twice`);
    files.set(name, method ? inflateRawSync(packed) : packed);
    at += 46 + length + bytes.readUInt16LE(at + 30) + bytes.readUInt16LE(at + 32);
  }
  return files;
}

// The texts of a saved ZIP by the names of the layers: a Map of their bytes.
export async function layerTexts(tab, bytes) {
  const files = unzipped(bytes), layers = JSON.parse(await tab.ask("JSON.stringify(camplot.state.layers.map(({ name, kind, origin }) =>"
    + " ({ name, kind, origin })))"));
  const paths = savedPaths(layers), texts = new Map(layers.map(({ name }) => [name, files.get(paths.get(name))]));
  const lacking = layers.filter(({ name }) => !texts.get(name));
  if (lacking.length || files.size !== layers.length) throw new Error(`the ZIP has ${[...files.keys()]}, the layers ${[...paths.values()]}`);
  return texts;
}

// Does something that saves a file; its name and its bytes.
export async function saving(tab, act, folder = room()) {
  const { events } = tab.browser, from = events.length;
  await tab.call("Browser.setDownloadBehavior", { behavior: "allowAndName", downloadPath: folder, eventsEnabled: true,
    browserContextId: tab.context }, null);
  await act();
  for (const until = Date.now() + 60000; Date.now() < until;) {
    const begun = events.slice(from).find(({ method }) => method === "Browser.downloadWillBegin")?.params;
    if (begun && events.slice(from).some(({ method, params }) => method === "Browser.downloadProgress"
      && params.guid === begun.guid && params.state === "completed")) {
      const path = join(folder, begun.guid), bytes = readFileSync(path);
      rmSync(path);
      return { name: begun.suggestedFilename, bytes };
    }
    await new Promise((done) => setTimeout(done, 5));
  }
  throw new Error("nothing was saved in 60 seconds");
}

export function layOut(files, folder = room()) {
  for (const [name, bytes] of files) {
    mkdirSync(dirname(join(folder, name)), { recursive: true });
    writeFileSync(join(folder, name), bytes);
  }
  return folder;
}

// Runs a script over files by the program: its replies, a line each, and the folder with what it wrote.
export function ran(files, words = ["script"], folder = room()) {
  layOut(files, folder);
  const { status, stdout, stderr } = spawnSync(program(), words, { cwd: folder, encoding: "latin1", maxBuffer: 2 ** 28 });
  return { status, stderr, replies: stdout.split("\n").slice(0, -1), read: (name) => readFileSync(join(folder, name)) };
}

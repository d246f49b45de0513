// The station of the page's module. Layers are asked by it; where no program is built, it takes lines as the program does.

import { existsSync, readFileSync, statSync } from "node:fs";
import { dirname, join } from "node:path";
import { fileURLToPath } from "node:url";
import { Station } from "../../web/station/index.js";
import { latin1, latin1Bytes } from "../../web/bytes/index.js";
import { Failure } from "../../web/convert/index.js";
import { wordsOf } from "../../web/board/index.js";
import { replaceFile } from "./files.js";
import { remedy } from "./places.js";

const MODULE = join(dirname(dirname(dirname(fileURLToPath(import.meta.url)))), "web", "out", "station.wasm");
// What can be undone, as of the program.
const DEPTH = 100;

/** @type {WebAssembly.Module | null | undefined} */
let compiled;

function read() {
  if (!existsSync(MODULE)) return null;
  const bytes = readFileSync(MODULE);
  return WebAssembly.validate(bytes) ? new WebAssembly.Module(bytes) : null;
}

/** The module, or null where none is built, or none that this node reads. */
export function stationModule() {
  compiled ??= read();
  return compiled;
}

/**
 * The module, by which layers are asked.
 * @throws {Failure} where there is none
 */
export function neededModule() {
  const module = stationModule();
  if (!module) throw new Failure(`web/out/station.wasm does not exist, or this node cannot read it: ${remedy("./demo builds it")}`);
  return module;
}

// A path of a line, whose characters are its bytes.
/** @param {string} folder @param {string} path */
function pathIn(folder, path) {
  return Buffer.concat([...path.startsWith("/") ? [] : [Buffer.from(join(folder, "/"))], latin1Bytes(path)]);
}

// The bytes of a file; null where it cannot be read, which the station refuses.
/** @param {Uint8Array} path */
function bytesAt(path) {
  try {
    return statSync(path).isFile() ? readFileSync(path) : null;
  } catch {
    return null;
  }
}

/** @param {Station} station @param {string} folder @param {string} line */
function served(station, folder, line) {
  const [command, ...words] = wordsOf(line), [, path, loaded] = words, isLoad = command === "load" && words.length === 3;
  const code = station.apply(latin1Bytes(line), isLoad && loaded !== undefined ? bytesAt(pathIn(folder, loaded)) : null);
  if (code === 0 && (command === "plot" || command === "write") && path !== undefined) {
    replaceFile(String(pathIn(folder, path)), station.file);
  }
  return latin1(station.reply);
}

/**
 * Runs lines over the files of a folder. A character of a line is a byte of it.
 * @param {string} folder
 * @param {string[]} lines
 * @returns {string} the replies, each with a line feed
 */
export function outputOfModule(folder, lines) {
  const station = new Station(neededModule(), DEPTH);
  try {
    return lines.map((line) => served(station, folder, line)).join("");
  } finally {
    station.close();
  }
}

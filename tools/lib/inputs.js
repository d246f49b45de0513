// The files of a board that a call names: one by one, or by their folder.

import { existsSync, readFileSync, readdirSync, statSync } from "node:fs";
import { basename, dirname, join } from "node:path";
import { utf8 } from "../../web/bytes/index.js";
import { DRILL, kindOf } from "../../web/board/index.js";
import { counted } from "../../web/nets/index.js";
import { Failure } from "./command.js";
import { headOf } from "./files.js";
import { LIST } from "./rooms.js";

/** @typedef {import("../../web/board/index.js").BoardFile} BoardFile */

/**
 * All bytes of a file: of one on a disk only the first may have been read.
 * @param {BoardFile} file
 * @returns {Uint8Array}
 */
export function bytesOf({ path, bytes }) {
  return path === undefined ? bytes : readFileSync(path);
}

/**
 * The path of a file for people, and for a line of a shell.
 * @param {BoardFile} file
 */
export function pathOf({ path, name }) {
  return path === undefined ? name : typeof path === "string" ? path : utf8(path);
}

/** @param {string | Buffer} path @param {string} name @returns {BoardFile} */
function boardFile(path, name) {
  return { path, name, bytes: headOf(path) };
}

// What a folder has, in order; hidden names are left out. Names are bytes, and need not be UTF-8.
/** @param {string} folder */
function entriesOf(folder) {
  const names = readdirSync(folder, { encoding: "buffer" }).sort(Buffer.compare).filter((name) => name[0] !== 0x2e);
  return names.map((name) => ({ name: utf8(name), path: Buffer.concat([Buffer.from(join(folder, "/")), name]) }))
    .map((entry) => ({ ...entry, known: statSync(entry.path, { throwIfNoEntry: false }) }));
}

/** @param {string} folder @returns {BoardFile[]} */
function filesOf(folder) {
  return entriesOf(folder).filter(({ known }) => known?.isFile()).map(({ name, path }) => boardFile(path, name));
}

/** @param {BoardFile} file */
const isDrill = ({ bytes }) => kindOf(bytes) === DRILL;

// The drill files of each folder in a folder, but of those that tools/board leaves.
/** @param {string} folder */
function drillsBelow(folder) {
  const folders = entriesOf(folder).filter(({ known, path }) => {
    return known?.isDirectory() && !existsSync(Buffer.concat([path, Buffer.from(`/${LIST}`)]));
  });
  return folders.map(({ name }) => ({ name, drills: filesOf(join(folder, name)).filter(isDrill) }))
    .filter(({ drills }) => drills.length);
}

// Drill files may lie in a folder of their own, as KiCad's `drill/`. Those of several folders may be of several revisions.
/** @param {string} folder @param {BoardFile[]} files @returns {{drills: BoardFile[], notes: string[]}} */
function drillsOf(folder, files) {
  const below = drillsBelow(folder), shown = below.map(({ name }) => `${name}/`).join(" and "), [first] = below;
  if (!first) return { drills: [], notes: [] };
  const count = counted(below.reduce((sum, { drills }) => sum + drills.length, 0), "drill file");
  if (below.length === 1 && !files.some(isDrill)) return { drills: first.drills, notes: [`${count} of ${shown} taken too`] };
  const why = files.some(isDrill) ? "the folder has its own" : "there are several such folders";
  return { drills: [], notes: [`not taken: ${count} of ${shown}, since ${why}; name the files to take others`] };
}

/**
 * The files to look at, whether they were named one by one, the folder where pictures go, and what is told of the choice.
 * @param {string[]} paths
 * @returns {{files: BoardFile[], areNamed: boolean, folder: string, notes: string[]}}
 */
export function inputs(paths) {
  for (const path of paths) if (!existsSync(path)) throw new Failure(`${path} does not exist`);
  /** @param {string} path */
  const isFolder = (path) => statSync(path).isDirectory();
  const [first = "."] = paths;
  if (paths.length === 1 && isFolder(first)) {
    const files = filesOf(first), { drills, notes } = drillsOf(first, files);
    return { files: [...files, ...drills], areNamed: false, folder: join(first, "board"), notes };
  }
  const folder = paths.find(isFolder);
  if (folder !== undefined) throw new Failure(`${folder} is a folder: name one folder, or files`);
  return { files: paths.map((path) => boardFile(path, basename(path))), areNamed: true,
    folder: join(dirname(first), "board"), notes: [] };
}

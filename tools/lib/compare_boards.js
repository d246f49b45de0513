// The two boards of a comparison: each a folder, a ZIP file, or files; and their layers in pairs.

import { createHash } from "node:crypto";
import { recogniseFiles } from "../../web/board/index.js";
import { functionsOfJobs, pairedLayers, tellByJobs } from "../../web/compare/index.js";
import { filesOfArchive, isArchive } from "../../web/zip/index.js";
import { Failure } from "./command.js";
import { bytesOf, inputs } from "./inputs.js";

/** @typedef {import("../../web/board/index.js").Layer} Layer */
/** @typedef {import("../../web/board/index.js").BoardFile} BoardFile */

/**
 * A board that is compared.
 * @typedef {object} ComparedBoard
 * @property {string} title
 * @property {Layer[]} layers
 * @property {string[]} leftOut the names of files that are no layers
 * @property {string[]} notes what is told of the choice of files
 * @property {string[]} faults files that cannot be read
 * @property {Map<string, string>} functions of job files
 * @property {(string | Uint8Array)[]} sources the paths of files that are read
 */

// The files, and what lies in those that are ZIP files.
/** @param {BoardFile[]} files */
async function unpacked(files) {
  /** @type {BoardFile[]} */
  const found = [];
  /** @type {string[]} */
  const faults = [];
  let isAny = false;
  for (const file of files) {
    if (!isArchive(file.bytes)) {
      found.push(file);
      continue;
    }
    isAny = true;
    const inside = await filesOfArchive(new Uint8Array(bytesOf(file)), file.name);
    found.push(...inside.files.map(({ name, bytes }) => ({ name, bytes })));
    faults.push(...inside.faults);
  }
  return { found, faults, isAny };
}

const JOB = /\.gbrjob$/i;

/**
 * A board by the words of a call.
 * @param {string[]} paths
 * @returns {Promise<ComparedBoard>}
 * @throws {Failure} where it has no layer
 */
export async function boardOf(paths) {
  const { files, areNamed, notes } = inputs(paths), title = paths.join(" ");
  const { found, faults, isAny } = await unpacked(files);
  const jobs = found.filter(({ name }) => JOB.test(name)).map((file) => ({ ...file, bytes: bytesOf(file) }));
  const functions = functionsOfJobs(jobs), { layers, others } = recogniseFiles(found.filter(({ name }) => !JOB.test(name)), areNamed && !isAny);
  tellByJobs(layers, functions);
  if (!layers.length) throw new Failure(faults[0] ?? `no layer is recognised among ${found.length} files of ${title}`);
  return { title, layers, leftOut: others.map(({ name }) => name), notes, faults, functions,
    sources: files.flatMap(({ path }) => (path === undefined ? [] : [path])) };
}

/** @param {Layer} layer */
const checksum = ({ file }) => createHash("sha256").update(bytesOf(file)).digest("hex");

/**
 * The layers of two boards in pairs.
 * @param {ComparedBoard} first
 * @param {ComparedBoard} second
 */
export function pairsOf(first, second) {
  return pairedLayers(first.layers, second.layers, [first.functions, second.functions], checksum);
}

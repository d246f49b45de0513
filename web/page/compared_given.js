// The boards that are compared, as the worker of that takes them: a board of this window by the lines that its station accepted,
// another one by its files.

import { DEPTH, wordsOf } from "../machine/index.js";
import { asShown } from "./net_stack.js";
import { nameOf, plural, titleOf } from "../board/index.js";
import { readAll, readDropped, unpackedApart } from "./files.js";
import { withUnpacked } from "../zip/index.js";

/**
 * A board that is compared: its files, or the lines of one that is open; `name` of its layer leads to a place of it.
 * @typedef {object} Given
 * @property {string} title
 * @property {Machine.File[]} [files]
 * @property {string[]} [faults] what was not read
 * @property {import("../worker/index.js").BoardLines} [board]
 * @property {number} [depth]
 * @property {boolean} isShown whether it is the board that the page shows
 */

/** @param {Machine.Told[]} told @param {Record<string, Machine.File>} files @param {Machine.Layer[]} layers @param {Machine.File | null} job */
function boardOf(told, files, layers, job) {
  /** @param {string} id */
  const fileOf = (id) => {
    const found = files[id];
    if (!found) throw new Error("a file of it is missing");
    return found;
  };
  const accepted = told.filter(({ reply }) => reply.startsWith("ok"));
  const lines = accepted.map(({ line, file }) => (file === undefined ? { line } : { line, bytes: fileOf(file).bytes }));
  const loads = accepted.flatMap(({ line, file }) => {
    if (file === undefined) return [];
    const [, name = "", kind] = wordsOf(line), layer = layers.find((one) => one.name === name) ?? null, its = fileOf(file);
    // (of a page that was loaded again the files have numbers for names, and the layers know from which file they came)
    return [{ name, kind: /** @type {Board.LayerKind} */ (kind), fileName: layer?.file ?? its.name, bytes: asShown(layer, layers, its.bytes) }];
  });
  return { lines, layers: loads, job };
}

/**
 * A board of this window; one that was not shown since the page was loaded is read from what is kept of it.
 * @param {Page.Board} board
 * @param {Machine.State | null} state of the board that is shown
 * @returns {Promise<Given>}
 */
export async function givenOfBoard(board, state) {
  const now = state ?? board.state, title = nameOf(now ? { ...board, title: titleOf(now) } : board), common = { title, depth: DEPTH, isShown: state !== null };
  if (now) return { ...common, board: boardOf(now.told, now.files, now.layers, now.job) };
  const { records, files, looks } = await board.kept.read();
  const named = Object.fromEntries(files.map(([id, bytes]) => [id, { name: id, bytes }])), told = records.flat();
  for (const { file = "", layer, path } of told) {
    const its = named[file];
    if (its) its.name = layer?.file ?? path?.replace(/^.*\//, "") ?? its.name;
  }
  return { ...common, board: boardOf(told, named, /** @type {Machine.Layer[]} */ (looks?.layers ?? []), looks?.job ?? null) };
}

// Files, with those of archives in their places.
/** @param {string} title @param {{ files: Machine.File[], faults: string[] }} read @returns {Promise<Given>} */
async function unpackedGiven(title, read) {
  const { files, faults } = await withUnpacked(read.files, unpackedApart);
  return { title, files, faults: [...read.faults, ...faults], isShown: false };
}

/** @param {string[]} names */
const titleOfFiles = (names) => (names.length === 1 ? names[0] ?? "" : plural(names.length, "file"));

// What was chosen in a field of files: the files, or those of a folder.
/** @param {HTMLInputElement} input */
export async function givenOfInput(input) {
  const files = [...input.files ?? []], [folder = "", rest] = (files[0]?.webkitRelativePath ?? "").split("/");
  input.value = "";
  return unpackedGiven(rest ? folder : titleOfFiles(files.map(({ name }) => name)), await readAll(files));
}

// What was dropped: files, or folders by their names.
/** @param {import("./files.js").Dropped[]} dropped */
export async function givenOfDrop(dropped) {
  return unpackedGiven(titleOfFiles(dropped.map((one) => ("file" in one ? one.file?.name : one.entry.name) ?? "")), await readDropped(dropped));
}

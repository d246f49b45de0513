// The program as the station beside which modules of the page are tested: what it makes of files and of lines.

import { readFileSync, readdirSync, statSync, writeFileSync } from "node:fs";
import { join } from "node:path";
import { REPOSITORY, program, room, runProgram } from "./support.js";
import { latin1Bytes } from "../bytes/text.js";
import { plainItems } from "./plain_items.js";

// How many layers a station has at most.
const LAYERS = 32;

/** Every file under a folder of the repository, by its path there. */
export function* filesUnder(folder) {
  for (const name of readdirSync(join(REPOSITORY, folder)).sort()) {
    const path = join(folder, name);
    if (statSync(join(REPOSITORY, path)).isDirectory()) yield* filesUnder(path);
    else yield { path, bytes: readFileSync(join(REPOSITORY, path)) };
  }
}

/**
 * Runs lines in a folder of their own.
 * @param {string[]} lines a character for each byte
 * @param {Record<string, Uint8Array>} files by the names that the lines load
 * @param {number} [depth]
 * @returns {{folder: string, replies: string[]}}
 */
export function ran(lines, files, depth = 100) {
  const folder = room();
  for (const [name, bytes] of Object.entries(files)) writeFileSync(join(folder, name), bytes);
  writeFileSync(join(folder, "script"), latin1Bytes(lines.map((line) => `${line}\n`).join("")));
  const { stdout, stderr } = runProgram(folder, "script", ["--depth", String(depth)]);
  if (stderr) throw new Error(stderr);
  return { folder, replies: stdout.split("\n").slice(0, -1) };
}

/**
 * The canonical texts of files.
 * @param {Uint8Array[]} files
 * @param {"gerber" | "drill"} kind
 * @returns {(Uint8Array | null)[]} null where one is refused
 */
export function canonicalTexts(files, kind = "gerber") {
  program();
  const texts = [];
  for (let from = 0; from < files.length; from += LAYERS) {
    const some = files.slice(from, from + LAYERS);
    const lines = some.flatMap((_, at) => [`load l${at} ${kind} f${at}`, `write l${at} t${at}`]);
    const { folder, replies } = ran(lines, Object.fromEntries(some.map((bytes, at) => [`f${at}`, bytes])));
    texts.push(...some.map((_, at) => replies[2 * at].startsWith("ok ") ? readFileSync(join(folder, `t${at}`)) : null));
  }
  return texts;
}

/** The lines of the station's answer to `items`, by a canonical text. */
export function itemLines(text) {
  return plainItems(text).flatMap(({ words, objects }) => [words, ...objects.map((object) => `  ${object.words}`)]);
}

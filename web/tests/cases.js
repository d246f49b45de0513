// Scripts over files in memory with what the program says and writes: the cases of black_box that need no more, and
// scripts at random; and the page that plays them by modules (scripts_page.js).

import assert from "node:assert/strict";
import { cpSync, existsSync, lstatSync, mkdtempSync, readFileSync, readdirSync, rmSync, writeFileSync } from "node:fs";
import { gzipSync } from "node:zlib";
import { join } from "node:path";
import { spawnSync } from "node:child_process";
import { tmpdir } from "node:os";
import { REPOSITORY, program, room } from "./support.js";
import { inlined } from "../building/inline.js";

const CASES = join(REPOSITORY, "black_box", "cases");
// Bytes of cases that go over to a browser at once.
const AT_ONCE = 4e6;
// Cases that ask for what a file system alone can answer.
const OF_FILES = new Set(["checks_before_files", "explained_reasons", "failed_plot_keeps_its_tiles", "files_that_fail",
  "folders_and_full_devices"]);

/** A page with modules, [[BITS, PATH], ..], that plays cases: `differencesOf(BITS, CASES)`; its path. */
export function pageOfModules(modules) {
  const packed = modules.map(([bits, path]) => `<script type="text/plain" data-module="${bits}">${
    gzipSync(readFileSync(path)).toString("base64")}</script>`);
  const path = join(room(), "station.html");
  writeFileSync(path, `<!DOCTYPE html><meta charset="utf-8"><body>${packed.join("")}`
    + `<script>${inlined(join(REPOSITORY, "web", "tests", "scripts_page.js"))}</script>`);
  return path;
}

// Where parts of cases begin and end that are played at once.
function* parts(cases) {
  for (let at = 0, end = 0; at < cases.length; at = end) {
    for (let size = 0; end < cases.length && (end === at || size + cases[end].length < AT_ONCE); end++) size += cases[end].length;
    yield [at, end];
  }
}

/**
 * Plays cases, each a text of JSON, by all players, some at a time.
 * @param {string[]} cases
 * @param {Record<string, (cases: string[]) => unknown>} players by their names
 * @returns {Promise<string[]>} the differences, each with its player and name
 */
export async function differences(cases, players) {
  const found = [], all = Object.entries(players);
  for (const [at, end] of parts(cases)) {
    for (const [player, play] of all) {
      const told = await play(cases.slice(at, end));
      assert.equal(told.length, end - at);
      told.forEach((difference, k) => {
        if (difference) found.push(`${player}: ${JSON.parse(cases[at + k]).name ?? at + k}: ${difference}`);
      });
    }
  }
  console.log(`page: ${cases.length} scripts were played by ${all.map(([player]) => player).join("; ")}`);
  return found;
}

/**
 * So many scripts at random with the program's answers.
 * @param {number} count
 */
export function randomScripts(count) {
  const made = spawnSync("python3", [join(REPOSITORY, "fuzz", "answers.py"), program(), "--scripts", String(count)],
    { encoding: "utf8", maxBuffer: 2 ** 30 });
  assert.equal(made.status, 0, made.stderr);
  const cases = made.stdout.trim().split("\n");
  assert.equal(cases.length, count);
  return cases;
}

/**
 * The script and the depth that a call of the program names; null where it asks for something else. What --explain and
 * --progress print is the program's own.
 * @param {string[]} words
 */
function calledWith(words) {
  const left = words.flatMap((word) => word.startsWith("--depth=") ? ["--depth", word.slice(8)] : [word])
    .filter((word) => word !== "--explain" && word !== "--progress");
  const at = left.indexOf("--depth");
  const [, depth] = at < 0 ? [] : left.splice(at, 2);
  return left.length === 1 && !(/^-./).test(left[0]) ? { script: left[0], depth: depth === undefined ? 100 : Number(depth) } : null;
}

// What comes on a case's standard input, as base64: the script, or a file that it loads.
function inputOf(folder) {
  if (existsSync(join(folder, "stdin"))) return readFileSync(join(folder, "stdin")).toString("base64");
  if (!existsSync(join(folder, "feed"))) return null;
  // (it writes to a pipe, as it does to the program)
  const { stdout } = spawnSync("bash", ["-c", 'bash "$1" | cat', "-", join(folder, "feed")], { maxBuffer: 4e7 });
  return stdout.toString("base64");
}

// What of a case of black_box needs more than lines and the bytes of files: a run that ends before its script does, limits of
// the system, other devices, and files that are none.
function caseOf(name) {
  const folder = join(CASES, name);
  const held = (file) => existsSync(join(folder, file)) ? readFileSync(join(folder, file)) : null;
  if (["zeros", "memory", "stdout_to", "stderr_to", "complaint"].some(held)) return null;
  const called = calledWith(held("words")?.toString().trim().split("\n") ?? ["script"]);
  if (!called || ![undefined, "0", "1"].includes(held("status")?.toString().trim())) return null;
  const there = mkdtempSync(join(tmpdir(), "camplot-case-"));
  try {
    if (existsSync(join(folder, "files"))) cpSync(join(folder, "files"), there, { recursive: true });
    if (held("make")) spawnSync("bash", [join(folder, "make")], { cwd: there });
    const files = filesUnder(there), input = inputOf(folder);
    if (!files) return null;
    // (a path - in a script is a file of that name)
    const script = called.script === "-" ? input : files[called.script];
    if (!script) return null;
    const put = existsSync(join(folder, "written")) ? filesUnder(join(folder, "written")) : {};
    for (const line of held("copies")?.toString().trim().split("\n") ?? []) {
      const [copy, other] = line.split(" ");
      put[copy] = put[other] ?? files[other];
    }
    const beside = { ...files, ...input && { "/dev/stdin": input } };
    if (called.script !== "-") delete beside[called.script];
    const replies = (held("stdout")?.toString("latin1") ?? "").split("\n").slice(0, -1);
    return JSON.stringify({ name, script, depth: called.depth, files: beside, replies, put });
  } finally {
    rmSync(there, { recursive: true, force: true });
  }
}

// The files of a folder by their paths, as base64; null where one is no plain file, or all are too long.
function filesUnder(folder, before = "", found = {}) {
  for (const name of readdirSync(join(folder, before))) {
    const path = join(before, name), about = lstatSync(join(folder, path));
    if (about.isDirectory()) filesUnder(folder, path, found);
    else if (about.isFile() && about.size < 4e7) found[path] = readFileSync(join(folder, path)).toString("base64");
    else return null;
  }
  return found;
}

/** The cases of black_box that need lines and files alone. */
export function blackBoxCases() {
  const names = readdirSync(CASES).sort().filter((name) => !OF_FILES.has(name));
  const cases = names.map(caseOf).filter((each) => each);
  console.log(`page: ${cases.length} of ${names.length} cases of black_box are served by the module`);
  const left = names.filter((name) => !cases.some((each) => JSON.parse(each).name === name));
  console.log(`page: not served, since they ask for more than lines and files: ${left.join(" ")}`);
  assert.ok(left.length < names.length / 10, "too many are left out");
  return cases;
}

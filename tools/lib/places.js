// Where things are, and what they are called: in the repository, and where ./install puts them.

import { existsSync } from "node:fs";
import { dirname, join, relative } from "node:path";
import { fileURLToPath } from "node:url";

// The folder of tools/ and web/: the repository, or lib/camplot below a prefix.
const TOP = dirname(dirname(dirname(fileURLToPath(import.meta.url))));
const PREFIX = dirname(dirname(TOP));
const isInstalled = !existsSync(join(TOP, "crates"));

/** The program that `./demo` builds, or the installed one. */
export const PROGRAM = isInstalled ? join(PREFIX, "bin", "camplot")
  : relative(process.cwd(), join(TOP, "crates", "camplot", "out", "camplot"));

/** The text that explains refusals, as the tools read it. */
export const REFUSALS = join(TOP, "docs", "refusals.md");

/** The page without a board, which `./demo` or `web/build` makes and `./install` installs; null if there is none. */
export function builtPage() {
  const folders = isInstalled ? [join(PREFIX, "share", "camplot")]
    : [join(TOP, "crates", "camplot", "out"), join(TOP, "web", "out")];
  const found = folders.map((folder) => join(folder, "camplot.html")).find((path) => existsSync(path));
  return found === undefined ? null : relative(process.cwd(), found);
}

/**
 * What a tool is called: `tools/to_xnc`, or `camplot-to-xnc` if it is installed.
 * @param {string} tool
 * @returns {string}
 */
export function called(tool) {
  return isInstalled ? `camplot-${tool.replaceAll("_", "-")}` : `tools/${tool}`;
}

/**
 * What helps where something is not there.
 * @param {string} made what makes it in the repository
 * @returns {string}
 */
export function remedy(made) {
  return isInstalled ? "install camplot again" : made;
}

/**
 * Where a document lies.
 * @param {string} name
 * @returns {string}
 */
export function documentAt(name) {
  return isInstalled ? join(PREFIX, "share", "doc", "camplot", name) : `docs/${name}`;
}

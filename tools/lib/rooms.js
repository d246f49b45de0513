// The folder that a tool leaves its files in, which replaces no file that is not its own.

import { createHash } from "node:crypto";
import { existsSync, mkdirSync, readFileSync, readdirSync, rmSync, statSync, writeFileSync } from "node:fs";
import { dirname, join } from "node:path";
import { Failure } from "../../web/convert/index.js";
import { noteWritten, reasonOf, replaceFile } from "./files.js";
import { Series } from "./series.js";

/** The list of the files that the tool left, with their checksums. */
export const LIST = ".left_by_board.json";

/** @param {string} path */
function checksum(path) {
  return createHash("sha256").update(readFileSync(path)).digest("hex");
}

/** @param {string} path */
function isFile(path) {
  return existsSync(path) && statSync(path).isFile();
}

// Which file is at a path, and as it was written when.
/** @param {string} path */
function markOf(path) {
  const found = statSync(path, { bigint: true, throwIfNoEntry: false });
  return found ? `${found.ino} ${found.mtimeNs}` : "";
}

/**
 * The checksums of a list that an earlier run left, by the names of files; of none in another folder.
 * @param {string} text
 * @returns {Map<string, string>}
 * @throws {SyntaxError} where it is no such list
 */
function sumsOf(text) {
  /** @type {unknown} */
  const found = JSON.parse(text);
  if (found === null || typeof found !== "object" || Array.isArray(found)) throw new SyntaxError("no list");
  /** @type {Map<string, string>} */
  const sums = new Map();
  for (const [name, sum] of Object.entries(found)) {
    if (typeof sum !== "string") throw new SyntaxError(`no checksum of ${name}`);
    if (!name.split(/[\\/]/).includes("..")) sums.set(name, sum);
  }
  return sums;
}

/**
 * A folder, new or empty or left by an earlier run, whose files are then replaced, or deleted if this run leaves none of
 * their names. Where it holds a file that was changed since, or that a file of this run would replace, it is refused, but
 * where `isReplacing`.
 */
export class Room {
  /**
   * @param {string} folder
   * @param {boolean} isReplacing
   * @param {boolean} isScratch whether it is for this run alone, which deletes it
   */
  constructor(folder, isReplacing, isScratch = false) {
    this.folder = folder;
    this.isReplacing = isReplacing;
    this.put = isScratch ? writeFileSync : replaceFile;
    this.series = new Series(folder);
    /** @type {Set<string>} the names of files of the run before that stay though this run left none */
    this.kept = new Set();
    try {
      mkdirSync(folder, { recursive: true });
    } catch (fault) {
      throw new Failure(`${folder} cannot be made: ${reasonOf(fault)}; --out names another folder`);
    }
    /** @type {Map<string, string>} the files of the run before, and their checksums */
    this.earlier = this.readEarlier();
    this.checkEarlier();
  }

  readEarlier() {
    const path = join(this.folder, LIST);
    if (!isFile(path)) return new Map();
    try {
      return sumsOf(readFileSync(path, "utf8"));
    } catch (fault) {
      if (!(fault instanceof SyntaxError)) throw fault;
      throw new Failure(`${path} is not a list of an earlier run`);
    }
  }

  checkEarlier() {
    if (!this.earlier.size && !this.isReplacing && readdirSync(this.folder).length) {
      throw new Failure(`${this.folder} has files of other origin: --out names another folder, and --replace `
        + "replaces those in it that have the same names");
    }
    for (const [name, sumThen] of this.earlier) {
      const path = join(this.folder, name);
      if (isFile(path) && checksum(path) !== sumThen && !this.isReplacing) {
        throw new Failure(`${path} was changed since an earlier run wrote it, or that run was cut short: --out names another `
          + "folder, and --replace replaces it");
      }
    }
  }

  /**
   * The path of a file that is to be written, in a folder that is there.
   * @param {string} name
   */
  path(name) {
    const path = join(this.folder, name), isOwn = this.earlier.has(name) || this.series.written.has(name);
    if (existsSync(path) && !isOwn && !this.isReplacing) {
      throw new Failure(`${path} is in the way: --out names another folder, and --replace replaces it`);
    }
    mkdirSync(dirname(path), { recursive: true });
    return path;
  }

  /**
   * Writes a file.
   * @param {string} name
   * @param {Uint8Array | string} content
   */
  write(name, content) {
    this.put(this.path(name), content);
    this.series.done(name);
  }

  /**
   * Runs what writes files of these names, and notes those that it wrote, also where it fails.
   * @template T
   * @param {string[]} names
   * @param {() => T} act
   * @returns {T}
   */
  watch(names, act) {
    const paths = names.map((name) => ({ name, path: this.path(name) })), marks = paths.map(({ name, path }) => ({ name, path, mark: markOf(path) }));
    try {
      return act();
    } finally {
      for (const { name, path, mark } of marks) if (markOf(path) !== mark) this.series.done(name);
    }
  }

  /**
   * Leaves files in the room, deletes what else an earlier run left, and lists them. Where that fails, the others stay, and
   * the fault has what was written.
   * @template T
   * @param {() => T} act
   * @returns {T}
   */
  fill(act) {
    return this.series.during(() => {
      /** @type {T} */
      let result;
      try {
        result = act();
      } catch (fault) {
        this.tryToList();
        throw fault;
      }
      this.deleteOthers();
      this.writeList();
      if (this.series.written.size) noteWritten(this.folder);
      return result;
    });
  }

  deleteOthers() {
    const { written } = this.series;
    for (const name of [...this.earlier.keys()].filter((known) => !written.has(known) && !this.kept.has(known))) {
      rmSync(join(this.folder, name), { force: true });
      this.earlier.delete(name);
    }
  }

  // What an earlier run left and this one did not replace is as it was then.
  writeList() {
    const { written } = this.series, names = [...new Set([...this.earlier.keys(), ...written])].filter((name) => isFile(join(this.folder, name)));
    const sums = names.sort().map((name) => [name, written.has(name) ? checksum(join(this.folder, name)) : this.earlier.get(name)]);
    this.put(join(this.folder, LIST), `${JSON.stringify(Object.fromEntries(sums), null, 1)}\n`);
  }

  // (The run has failed, which is what is told.)
  tryToList() {
    try {
      this.writeList();
    } catch {
      this.series.plan([LIST]);
    }
  }
}

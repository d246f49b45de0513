// Files: read whole, written whole, and never replaced unasked.

import { closeSync, openSync, readFileSync, readSync, statSync } from "node:fs";
import { getSystemErrorMap } from "node:util";
import { Failure } from "../../web/convert/index.js";
import { HEAD } from "../../web/board/index.js";
import { codeOf, isFault, messageOf } from "./faults.js";
import { isStream, put } from "./whole.js";

/**
 * Why the system refused something, in its words.
 * @param {unknown} fault
 * @returns {string}
 */
export function reasonOf(fault) {
  const errno = isFault(fault) ? fault.errno : null;
  const text = (typeof errno === "number" ? getSystemErrorMap().get(errno)?.[1] : undefined) ?? messageOf(fault);
  return text.slice(0, 1).toUpperCase() + text.slice(1);
}

/** The word of a call that stands for standard input, or for standard output. */
export const STANDARD = "-";

/**
 * The bytes of a file, or of standard input.
 * @param {string} path
 * @returns {Uint8Array}
 * @throws {Failure} where it cannot be read
 */
export function readBytes(path) {
  if (path !== STANDARD && statSync(path, { throwIfNoEntry: false })?.isDirectory()) {
    throw new Failure(`${path} is a folder: name a file of it`);
  }
  try {
    return readFileSync(path === STANDARD ? 0 : path);
  } catch (fault) {
    throw new Failure(`${path}: cannot be read: ${reasonOf(fault)}`);
  }
}

/**
 * The first bytes of a file, which tell its kind.
 * @param {string | Buffer} path
 * @returns {Uint8Array}
 */
export function headOf(path) {
  const head = new Uint8Array(HEAD), file = openSync(path, "r");
  try {
    let length = 0, count = 0;
    do {
      count = readSync(file, head, length, HEAD - length, null);
      length += count;
    } while (count > 0 && length < HEAD);
    return head.subarray(0, length);
  } finally {
    closeSync(file);
  }
}

/** @param {string} one @param {string | Uint8Array} other */
function isSameFile(one, other) {
  try {
    const a = statSync(one), b = statSync(other);
    return a.dev === b.dev && a.ino === b.ino;
  } catch {
    return false;
  }
}

/** @type {string[]} */
const written = [];

/** The files and folders that this process has written, for people. */
export function writtenFiles() {
  return written;
}

/**
 * Notes that a file or a folder was written.
 * @param {string} path
 */
export function noteWritten(path) {
  written.push(path);
}

/** @param {string} path @param {unknown} fault */
function unwritten(path, fault) {
  return new Failure(`${path}: cannot be written: ${reasonOf(fault)}`);
}

/** @param {string} path */
function existing(path) {
  return new Failure(`${path}: exists already; --replace replaces it, -o names another`);
}

/**
 * Stops where a file may not be written: it is there already, or was read.
 * @param {string} path
 * @param {boolean} isReplacing
 * @param {(string | Uint8Array)[]} sources the files that were read
 * @throws {Failure}
 */
export function checkTarget(path, isReplacing, sources = []) {
  if (sources.some((source) => isSameFile(path, source))) {
    throw new Failure(`${path}: is a file that was read; name another by -o`);
  }
  if (statSync(path, { throwIfNoEntry: false })?.isFile() && !isReplacing && !isStream(path)) throw existing(path);
}

/**
 * Writes a file that was not there, whole or not at all; where `isReplacing` also over one that was, but never over one that
 * was read. A device and a pipe are written straight on.
 * @param {string} path
 * @param {Uint8Array | string} content
 * @param {boolean} isReplacing
 * @param {(string | Uint8Array)[]} sources the files that were read
 * @throws {Failure} where it exists already, or cannot be written
 */
export function writeFile(path, content, isReplacing, sources = []) {
  checkTarget(path, isReplacing, sources);
  try {
    put(path, content, !isReplacing);
  } catch (fault) {
    throw codeOf(fault) === "EEXIST" ? existing(path) : unwritten(path, fault);
  }
  noteWritten(path);
}

/**
 * Writes a file, also over one that was there: whole, or that one stays.
 * @param {string} path
 * @param {Uint8Array | string} content
 * @throws {Failure} where it cannot be written
 */
export function replaceFile(path, content) {
  try {
    put(path, content);
  } catch (fault) {
    throw unwritten(path, fault);
  }
}

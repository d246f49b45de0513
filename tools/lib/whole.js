// A file that is written is whole, or it is the one of before, whatever fails and whenever the run is killed.

import { accessSync, closeSync, constants, existsSync, fchmodSync, fchownSync, fstatSync, fsyncSync, linkSync, lstatSync, openSync,
  realpathSync, renameSync, rmSync, statSync, unlinkSync, writeFileSync } from "node:fs";
import { basename, dirname, join } from "node:path";
import { codeOf } from "./faults.js";

/** What is after the name of a file in that of our own, which becomes it. The program has the same (docs/formats.md). */
export const OWN = " (camplot, unfinished)";
/** The bytes of the longest name of a file. */
const LONGEST = 255;
/** Where no file can be made next to the target, or none can take its place. */
const UNABLE = ["EACCES", "EBUSY", "EPERM", "EROFS", "ENOTSUP", "ENAMETOOLONG"];
/** Where no file can have two names. */
const UNLINKED = ["EMLINK", "ENOSYS", "ENOTSUP", "EPERM"];
/** The paths of what a process has open, and three of them in the order of their numbers. */
const OPEN = /^\/(?:dev|proc\/self)\/(?:fd\/(\d+)|(stdin|stdout|stderr))$/, NUMBERED = ["stdin", "stdout", "stderr"];

// The number of an open file by such a path; null for any other path.
/** @param {string} path */
function openNumber(path) {
  const [, number, name] = OPEN.exec(path) ?? [];
  return number ? Number(number) : name ? NUMBERED.indexOf(name) : null;
}

/**
 * Whether a path is that of a pipe, a device or an open file, which is written straight.
 * @param {string} path
 */
export function isStream(path) {
  const known = statSync(path, { throwIfNoEntry: false });
  return known !== undefined && (!known.isFile() || openNumber(path) !== null);
}

// (An open file that is a plain one is written on where it stands.)
/** @param {string} path @param {Uint8Array | string} content */
function putInto(path, content) {
  const number = openNumber(path);
  if (number !== null && statSync(path).isFile()) writeFileSync(number, content);
  else writeFileSync(path, content, { flag: "a" });
}

// A name that would be too long is cut.
/** @param {string} target */
function ownPath(target) {
  const letters = [...basename(target)];
  while (Buffer.byteLength(letters.join("")) + OWN.length > LONGEST) letters.pop();
  return join(dirname(target), `${letters.join("")}${OWN}`);
}

// One that a killed run has left there is taken over.
/** @param {string} own @param {number} mode */
function opened(own, mode) {
  try {
    return openSync(own, "wx", mode);
  } catch (fault) {
    if (codeOf(fault) !== "EEXIST") throw fault;
    unlinkSync(own);
    return openSync(own, "wx", mode);
  }
}

/** @param {() => void} act */
function isAllowed(act) {
  try {
    act();
    return true;
  } catch {
    return false;
  }
}

// The owner and the group of the file of before, as far as the system lets, and then its mode.
/** @param {number} file @param {Node.Stats} before */
function keepRights(file, { uid, gid, mode }) {
  const made = fstatSync(file);
  if (made.uid !== uid || made.gid !== gid) isAllowed(() => fchownSync(file, uid, gid)) || isAllowed(() => fchownSync(file, made.uid, gid));
  fchmodSync(file, mode & 0o777);
}

// A new file takes no path of another that was made in the meantime.
/** @param {string} own @param {string} target @param {boolean} isNew */
function take(own, target, isNew) {
  if (!isNew) return renameSync(own, target);
  try {
    return linkSync(own, target);
  } catch (fault) {
    if (!UNLINKED.includes(codeOf(fault) ?? "") || existsSync(target)) throw fault;
    return renameSync(own, target);
  }
}

/** @param {string} target @param {Uint8Array | string} content @param {Node.Stats | null} known @param {boolean} isNew */
function putByOwn(target, content, known, isNew) {
  if (known) accessSync(target, constants.W_OK);
  const own = ownPath(target), file = opened(own, known ? known.mode & 0o777 : 0o666);
  try {
    if (known) keepRights(file, known);
    writeFileSync(file, content);
    fsyncSync(file);
    take(own, target, isNew);
  } finally {
    closeSync(file);
    rmSync(own, { force: true });
  }
}

// A file that was not there is not left cut.
/** @param {string} path @param {Uint8Array | string} content @param {Node.Stats | null} known @param {boolean} isNew */
function putStraight(path, content, known, isNew) {
  const file = openSync(path, isNew ? "wx" : "w");
  try {
    writeFileSync(file, content);
  } catch (fault) {
    if (!known) rmSync(realpathSync(path), { force: true });
    throw fault;
  } finally {
    closeSync(file);
  }
}

/** @param {string} path */
const isLink = (path) => lstatSync(path, { throwIfNoEntry: false })?.isSymbolicLink() ?? false;

/**
 * Writes a file by way of one of our own next to it, which is removed if anything fails. Links are followed. A stream is
 * written straight, and so is a file if none can be made next to it, and what a link names that is not there.
 * @param {string} path
 * @param {Uint8Array | string} content
 * @param {boolean} isNew whether one that is there stays, which is a fault EEXIST
 */
export function put(path, content, isNew = false) {
  const known = statSync(path, { throwIfNoEntry: false }) ?? null;
  if (isStream(path)) return putInto(path, content);
  if (!known && isLink(path)) return putStraight(path, content, known, isNew);
  try {
    return putByOwn(known ? realpathSync(path) : path, content, known, isNew);
  } catch (fault) {
    if (!UNABLE.includes(codeOf(fault) ?? "")) throw fault;
    return putStraight(path, content, known, isNew);
  }
}

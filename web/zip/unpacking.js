// Reads ZIP files: what lies in them stored or deflated, each file checked by its size and its checksum. A file that cannot
// be read is told by its name, and the others are read all the same.

import { crc32, littles } from "./packing.js";
import { isArchive } from "./archives.js";

// What an archive may hold at most: so many files, and so many bytes of all of them when they are unpacked. A board has some
// dozens, and an archive that is made to fill the memory of whoever unpacks it is refused before it does.
const MOST_FILES = 10000, MOST_BYTES = 2 ** 30;

const END = 0x06054b50, LISTED = 0x02014b50, LOCAL = 0x04034b50, WIDE = 0x07064b50;
const END_SIZE = 22, LISTED_SIZE = 46, LOCAL_SIZE = 30, WIDE_SIZE = 20, MOST_COMMENT = 65535;
const IS_ENCRYPTED = 1, IS_UTF8 = 0x800;
const STORED = 0, DEFLATED = 8;

// The upper half of code page 437, which names without the mark of UTF-8 are in.
const UPPER = "ÇüéâäàåçêëèïîìÄÅÉæÆôöòûùÿÖÜ¢£¥₧ƒáíóúñÑªº¿⌐¬½¼¡«»░▒▓│┤╡╢╖╕╣║╗╝╜╛┐"
  + "└┴┬├─┼╞╟╚╔╩╦╠═╬╧╨╤╥╙╘╒╓╫╪┘┌█▄▌▐▀"
  + "αßΓπΣσµτΦΘΩδ∞φε∩≡±≥≤⌠⌡÷≈°∙·√ⁿ²■\u00a0";

// Why an archive, or a file in it, cannot be read.
class Unreadable extends Error {}

/** @param {string} why @returns {never} */
const fail = (why) => { throw new Unreadable(why); };

/** @param {number} number */
const count = (number) => number.toLocaleString("en");

/** @param {Uint8Array} bytes @param {number} flags */
function nameOf(bytes, flags) {
  try {
    return new TextDecoder("utf-8", { fatal: true }).decode(bytes);
  } catch {
    if (flags & IS_UTF8) return new TextDecoder().decode(bytes);
    return Array.from(bytes, (byte) => byte < 128 ? String.fromCharCode(byte) : UPPER[byte - 128]).join("");
  }
}

/** @param {string} name */
const hasControls = (name) => [...name].some((letter) => letter < " " || letter === "\x7f");

// A name as a path below the archive; null where it is none.
/** @param {string} name */
function pathOf(name) {
  const parts = name.replaceAll("\\", "/").split("/").filter((part) => part && part !== ".");
  return /^[\\/]|^[A-Za-z]:/.test(name) || hasControls(name) || parts.includes("..") || !parts.length ? null : parts.join("/");
}

// Where the end of the archive begins, behind which nothing stands but its comment.
/** @param {DataView} view */
function endOf(view) {
  const { byteLength: length } = view;
  for (let at = length - END_SIZE; at >= 0 && at >= length - END_SIZE - MOST_COMMENT; at--) {
    if (view.getUint32(at, true) === END && at + END_SIZE + view.getUint16(at + 20, true) === length) return at;
  }
  return fail("it has no end, so it is not whole");
}

// Numbers of two and of four bytes, so many bytes behind a place.
/** @param {DataView} view @param {number} at */
const numbersAt = (view, at) => ({
  /** @param {number} place */
  two: (place) => view.getUint16(at + place, true),
  /** @param {number} place */
  four: (place) => view.getUint32(at + place, true),
});

/** @typedef {ReturnType<typeof listedAt>} Listed a file as the list has it */

/** @param {DataView} view @param {Uint8Array} bytes @param {number} at */
function listedAt(view, bytes, at) {
  const { two, four } = numbersAt(view, at), flags = two(8), length = two(28);
  const raw = bytes.subarray(at + LISTED_SIZE, at + LISTED_SIZE + length);
  return { flags, method: two(10), crc: four(16), packed: four(20), size: four(24), local: four(42), raw, name: nameOf(raw, flags),
    next: at + LISTED_SIZE + length + two(30) + two(32) };
}

// The files that the archive lists, in its order.
/** @param {Uint8Array} bytes @param {DataView} view */
function listedIn(bytes, view) {
  const end = endOf(view), { two, four } = numbersAt(view, end), all = two(10), size = four(12), start = four(16);
  const isWide = end >= WIDE_SIZE && view.getUint32(end - WIDE_SIZE, true) === WIDE;
  if (isWide || all === 0xffff || size === 0xffffffff || start === 0xffffffff) fail("it is a ZIP64 file, which is not read");
  if (two(4) || two(6) || two(8) !== all) fail("it is a part of several, which are not read");
  if (all > MOST_FILES) fail(`it holds ${count(all)} files, and ${count(MOST_FILES)} are read at most`);
  /** @type {Listed[]} */
  const listed = [];
  for (let at = start; listed.length < all;) {
    if (at + LISTED_SIZE > Math.min(start + size, end) || view.getUint32(at, true) !== LISTED) fail("its list of files is broken");
    const entry = listedAt(view, bytes, at);
    listed.push(entry);
    at = entry.next;
    if (at > end) fail("its list of files is broken");
  }
  const unpacked = listed.reduce((sum, entry) => sum + entry.size, 0), packed = listed.reduce((sum, entry) => sum + entry.packed, 0);
  if (unpacked > MOST_BYTES) fail(`its files have ${count(unpacked)} bytes unpacked, and ${count(MOST_BYTES)} are read at most`);
  if (packed > start) fail("its files lie over one another");
  return { listed, start };
}

// The bytes of a file as they stand in the archive, in front of its list.
/** @param {Uint8Array} bytes @param {DataView} view @param {Listed} entry @param {number} start */
function packedOf(bytes, view, { local, raw, packed }, start) {
  if (local + LOCAL_SIZE > start || view.getUint32(local, true) !== LOCAL) fail("it is not where the list says");
  const length = view.getUint16(local + 26, true), from = local + LOCAL_SIZE + length + view.getUint16(local + 28, true);
  if (from + packed > start) fail("not all of its bytes are there");
  const own = bytes.subarray(local + LOCAL_SIZE, local + LOCAL_SIZE + length);
  if (own.length !== raw.length || own.some((byte, at) => byte !== raw[at])) fail("it has another name than in the list");
  return bytes.subarray(from, from + packed);
}

// What a stream hands out, in parts; null where it fails, or has more than so many bytes.
/** @param {ReadableStream<Uint8Array>} stream @param {number} most */
async function drained(stream, most) {
  const reader = stream.getReader(), parts = [];
  let size = 0;
  try {
    for (;;) {
      const { done, value } = await reader.read();
      if (done) return parts;
      parts.push(value);
      size += value.length;
      if (size > most) {
        reader.cancel().catch(() => {});
        return null;
      }
    }
  } catch {
    return null;
  }
}

// Deflated bytes are those of a gzip file without its head and its end. With these every browser that runs the page unpacks
// them, and so does node; a checksum or a size that is not theirs ends the stream with a fault.
const GZIP = new Uint8Array([0x1f, 0x8b, 8, 0, 0, 0, 0, 0, 0, 255]);

/** @param {Uint8Array} packed @param {Listed} entry */
async function inflated(packed, { crc, size }) {
  const gzip = new Blob([GZIP, packed, littles([crc, 4], [size, 4])]);
  const parts = await drained(gzip.stream().pipeThrough(new DecompressionStream("gzip")), size);
  if (!parts) fail("its packed bytes do not make the size and the checksum that the list says");
  return new Uint8Array(await new Blob(parts).arrayBuffer());
}

/** @param {Uint8Array} bytes @param {DataView} view @param {Listed} entry @param {number} start */
async function bytesOf(bytes, view, entry, start) {
  const { flags, method, size, crc } = entry;
  if (flags & IS_ENCRYPTED) fail("it is encrypted");
  if (method !== STORED && method !== DEFLATED) fail(`it is packed by method ${method}, and only stored and deflated files are read`);
  const packed = packedOf(bytes, view, entry, start);
  const made = method === STORED ? packed.slice() : await inflated(packed, entry);
  if (made.length !== size) fail(`it has ${count(made.length)} bytes, and the list says ${count(size)}`);
  if (crc32(made) !== crc) fail("its checksum is another one than the list says");
  return made;
}

// What a Mac puts beside files is none of a board.
/** @param {string} path */
const isBeside = (path) => /(?:^|\/)(?:__MACOSX\/|\._[^/]*$|\.DS_Store$)/.test(path);

// The files of an archive: { files: [{ name, path, bytes }], faults }, each with its folders in `path`; `faults` are sentences
// about those that are not read.
/** @param {Uint8Array} bytes @param {string} archive */
export async function filesOfArchive(bytes, archive) {
  const view = new DataView(bytes.buffer, bytes.byteOffset, bytes.byteLength), files = [], faults = [];
  try {
    const { listed, start } = listedIn(bytes, view);
    for (const entry of listed) {
      const path = pathOf(entry.name);
      if (/[\\/]$/.test(entry.name) && entry.size === 0 || path !== null && isBeside(path)) continue;
      try {
        if (path === null) fail("its name is no path in the archive");
        const made = await bytesOf(bytes, view, entry, start);
        if (isArchive(made)) fail("it is a ZIP file itself: unpack it");
        files.push({ name: path.replace(/^.*\//, ""), path, bytes: made });
      } catch (fault) {
        if (!(fault instanceof Unreadable)) throw fault;
        faults.push(`${archive}: ${JSON.stringify(entry.name).slice(1, -1)} is not read: ${fault.message}.`);
      }
    }
    if (!files.length && !faults.length) faults.push(`${archive} holds no files.`);
  } catch (fault) {
    faults.push(`${archive} is not read: ${fault instanceof Error ? fault.message : fault}.`);
  }
  return { files, faults };
}

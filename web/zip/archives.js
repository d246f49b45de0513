// ZIP files among files that are opened: which are some, and what lies in them.

/** @typedef {import("./packing.js").PackedFile} PackedFile */
/**
 * Reads an archive: its files, and sentences about those that are not read.
 * @typedef {(bytes: Uint8Array, archive: string) => Promise<{ files: PackedFile[], faults: string[] }>} Unpack
 */

// Whether bytes begin as a ZIP file does: with a file, or with the end of an empty one.
/** @param {Uint8Array} bytes */
export const isArchive = (bytes) => bytes[0] === 0x50 && bytes[1] === 0x4b
  && (bytes[2] === 3 && bytes[3] === 4 || bytes[2] === 5 && bytes[3] === 6);

// Files with those of the archives among them, in their order, as `unpack` reads them; `isAny` says whether there was an archive.
/** @param {PackedFile[]} given @param {Unpack} unpack */
export async function withUnpacked(given, unpack) {
  const files = [], faults = [];
  let isAny = false;
  for (const file of given) {
    if (!isArchive(file.bytes)) {
      files.push(file);
      continue;
    }
    isAny = true;
    const inside = await unpack(file.bytes, file.name);
    files.push(...inside.files);
    faults.push(...inside.faults);
  }
  return { files, faults, isAny };
}

// The floor of archives: ZIP files are written and read, and pictures become PNG files, which need the same sums.
//
// It is not a choice of files: which file of an archive is a layer, the board knows. It imports nothing.
//
// A file is { name, bytes, path }, where `path` has the folders of its archive. What is written is a list of parts, one after
// another. What cannot be read is named in `faults`, a sentence each, and the other files are read.
//
//     import { filesOfArchive, isArchive, zipOf } from "./index.js";
//     const archive = new Uint8Array(await new Blob(zipOf([{ name: "top.gbr", bytes: new Uint8Array(3) }])).arrayBuffer());
//     isArchive(archive); // true
//     (await filesOfArchive(archive, "board.zip")).files[0].path; // "top.gbr"

export { isArchive, withUnpacked } from "./archives.js";
export { crc32, inkPngOf, pngOf, zipOf } from "./packing.js";
export { filesOfArchive } from "./unpacking.js";

/** @typedef {import("./packing.js").PackedFile} PackedFile */
/** @typedef {import("./archives.js").Unpack} Unpack */

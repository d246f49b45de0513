// Files that are no layers, by what they are: archives of other kinds, documents and pictures are called by their names, with what to do.

/** @type {[is: (bytes: Uint8Array, name: string) => boolean, words: string][]} */
const KINDS = [
  [begins("Rar!\x1a\x07"), "is a RAR archive: unpack it, and drop what is in it"],
  [begins("7z\xbc\xaf\x27\x1c"), "is a 7z archive: unpack it, and drop what is in it"],
  [begins("\x1f\x8b"), "is a gzip file: unpack it, and drop what is in it"],
  [(bytes, name) => /\.gbrjob$/i.test(name), "is a Gerber job file, which lists a board's files: drop these"],
  [begins("%PDF"), "is a PDF document, which has no layers: export Gerber files"],
  [begins("\x89PNG"), "is a PNG picture, and pictures are read as PBM"],
  [begins("\xff\xd8\xff"), "is a JPEG picture, and pictures are read as PBM"],
  [begins("GIF8"), "is a GIF picture, and pictures are read as PBM"],
  [begins("BM"), "is a BMP picture, and pictures are read as PBM"],
  [begins("II*\0"), "is a TIFF picture, and pictures are read as PBM"],
  [begins("MM\0*"), "is a TIFF picture, and pictures are read as PBM"],
  [(bytes, name) => /\.svg$/i.test(name), "is an SVG picture, and pictures are read as PBM"],
];

// A job file is kept for what it says of the board; one that is larger is none.
const MOST_JOB = 1 << 20;

/** @param {Machine.File} file */
export const isJob = ({ name, bytes }) => /\.gbrjob$/i.test(name) && bytes.length <= MOST_JOB;

/** @param {string} head @returns {(bytes: Uint8Array) => boolean} */
function begins(head) {
  return (bytes) => [...head].every((letter, at) => bytes[at] === letter.charCodeAt(0));
}

// What a file is, as a sentence with its name; null where it is none of these.
/** @param {Machine.File} file */
export function otherWords({ name, bytes }) {
  const found = KINDS.find(([is]) => is(bytes, name));
  return found ? `${name} ${found[1]}.` : null;
}

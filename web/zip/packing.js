// Files of several: a ZIP of stored files, and a PNG of one bit a pixel, from bytes alone.

/** @typedef {{ name: string, bytes: Uint8Array, path?: string }} PackedFile `path` has the folders of its archive */

const text = new TextEncoder();

const crcs = new Uint32Array(256).map((_, byte) => {
  let value = byte;
  for (let bit = 0; bit < 8; bit++) value = value & 1 ? value >>> 1 ^ 0xedb88320 : value >>> 1;
  return value;
});

/** @param {Uint8Array[]} parts */
export function crc32(...parts) {
  let value = 0xffffffff;
  for (const part of parts) for (const byte of part) value = value >>> 8 ^ /** @type {number} */ (crcs[(value ^ byte) & 255]);
  return ~value >>> 0;
}

// Numbers of 2 and 4 bytes, the least byte first: [[value, bytes], ..].
/** @param {[value: number, bytes: number][]} fields */
export function littles(...fields) {
  const bytes = new Uint8Array(fields.reduce((sum, [, count]) => sum + count, 0));
  let at = 0;
  for (const [value, count] of fields) {
    for (let k = 0; k < count; k++) bytes[at++] = Math.floor(value / 256 ** k) & 255;
  }
  return bytes;
}

// 1980-01-01: a file of the same contents is the same file.
const DATE = 0x21;

// The bytes of a ZIP file of these files, [{ name, bytes }], as a list of parts.
/** @param {PackedFile[]} files */
export function zipOf(files) {
  const parts = [], index = [];
  let at = 0;
  for (const { name, bytes } of files) {
    const path = text.encode(name), crc = crc32(bytes);
    /** @type {[value: number, bytes: number][]} */
    const about = [[20, 2], [0x800, 2], [0, 2], [0, 2], [DATE, 2], [crc, 4], [bytes.length, 4], [bytes.length, 4],
      [path.length, 2], [0, 2]];
    const head = littles([0x04034b50, 4], ...about);
    index.push(littles([0x02014b50, 4], [20, 2], ...about, [0, 2], [0, 2], [0, 2], [0, 4], [at, 4]), path);
    parts.push(head, path, bytes);
    at += head.length + path.length + bytes.length;
  }
  const size = index.reduce((sum, part) => sum + part.length, 0);
  const end = littles([0x06054b50, 4], [0, 2], [0, 2], [files.length, 2], [files.length, 2], [size, 4], [at, 4], [0, 2]);
  return [...parts, ...index, end];
}

/** @param {number[]} values */
function bigs(...values) {
  const bytes = new Uint8Array(4 * values.length);
  const view = new DataView(bytes.buffer);
  values.forEach((value, at) => view.setUint32(4 * at, value));
  return bytes;
}

/** @param {string} name @param {Uint8Array[]} parts */
function chunk(name, ...parts) {
  const head = text.encode(name), size = parts.reduce((sum, part) => sum + part.length, 0);
  return [bigs(size), head, ...parts, bigs(crc32(head, ...parts))];
}

/** @param {Uint8Array} bytes */
async function deflated(bytes) {
  const stream = new Blob([bytes]).stream().pipeThrough(new CompressionStream("deflate"));
  return new Uint8Array(await new Response(stream).arrayBuffer());
}

// The PNG file of a raw PBM file, black on white, with the pixels a metre of its pitch in nm.
/** @param {Uint8Array} pbm @param {number} pitch */
export const pngOf = (pbm, pitch) => pngWith(pbm, pitch, 0, 255, []);

// The same with what is black in a colour, "#rrggbb", and the rest clear.
/** @param {Uint8Array} pbm @param {number} pitch @param {string} colour */
export function inkPngOf(pbm, pitch, colour) {
  const parts = [1, 3, 5].map((at) => parseInt(colour.slice(at, at + 2), 16));
  return pngWith(pbm, pitch, 3, 0, [...chunk("PLTE", new Uint8Array([0, 0, 0, ...parts])), ...chunk("tRNS", new Uint8Array([0]))]);
}

// `kind` is the colour type of the PNG, `white` what each byte of the PBM file is turned by, and `palette` the chunks of one.
/**
 * @param {Uint8Array} pbm
 * @param {number} pitch
 * @param {number} kind
 * @param {number} white
 * @param {Uint8Array[]} palette
 */
async function pngWith(pbm, pitch, kind, white, palette) {
  const [head, across, down] = /^P4\s(\d+)\s(\d+)\s/.exec(String.fromCharCode(...pbm.subarray(0, 40))) ?? [];
  if (head === undefined) throw new Error("the picture is no raw PBM file");
  const width = Number(across), height = Number(down), stride = width + 7 >> 3;
  const lines = new Uint8Array((stride + 1) * height);
  for (let row = 0, from = head.length; row < height; row++) {
    const to = row * (stride + 1) + 1;
    for (let byte = 0; byte < stride; byte++) lines[to + byte] = /** @type {number} */ (pbm[from++]) ^ white;
  }
  const metre = Math.min(0xffffffff, Math.round(1e9 / pitch));
  return [new Uint8Array([0x89, 80, 78, 71, 13, 10, 26, 10]),
    ...chunk("IHDR", bigs(width, height), new Uint8Array([1, kind, 0, 0, 0])),
    ...chunk("pHYs", bigs(metre, metre), new Uint8Array([1])),
    ...palette, ...chunk("IDAT", await deflated(lines)), ...chunk("IEND")];
}

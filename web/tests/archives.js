// ZIP files for tests, as a packer writes them or spoiled in a place. What the page itself packs is none of these.

import { deflateRawSync } from "node:zlib";
import { crc32 } from "../zip/packing.js";

const littles = (...fields) => Buffer.concat(fields.map(([value, bytes]) => {
  const made = Buffer.alloc(bytes);
  made.writeUIntLE(value, 0, bytes);
  return made;
}));

// The bytes of an archive of entries, { name, bytes }, each deflated unless `method` is 0. `raw` is a name as bytes; `crc`,
// `size` and `packed` stand in place of what is so, `local` in place of the name at the file itself.
export function archive(entries, { comment = "", behind = "", count = entries.length, start = null } = {}) {
  const parts = [], list = [];
  let at = 0;
  for (const { name = "", bytes = Buffer.alloc(0), method = 8, flags = 0x800, raw = Buffer.from(name), local = raw, ...said } of entries) {
    const { crc = crc32(bytes), size = bytes.length, packed = method === 8 ? deflateRawSync(bytes) : Buffer.from(bytes) } = said;
    const about = [[20, 2], [flags, 2], [method, 2], [0, 2], [0x21, 2], [crc, 4], [packed.length, 4], [size, 4]];
    const head = Buffer.concat([littles([0x04034b50, 4], ...about, [local.length, 2], [0, 2]), local]);
    list.push(littles([0x02014b50, 4], [20, 2], ...about, [raw.length, 2], [0, 2], [0, 2], [0, 2], [0, 2], [0, 4], [at, 4]), raw);
    parts.push(head, packed);
    at += head.length + packed.length;
  }
  const whole = Buffer.concat(list);
  return Buffer.concat([...parts, whole, littles([0x06054b50, 4], [0, 2], [0, 2], [count, 2], [count, 2], [whole.length, 4],
    [start ?? at, 4], [comment.length, 2]), Buffer.from(comment), Buffer.from(behind)]);
}

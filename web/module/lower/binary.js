// Numbers of the WebAssembly binary format (WebAssembly Core Specification, 5.2.2): little-endian groups of seven bits.

// What cannot be rewritten: the reason, with the place in the file.
export class Unknown extends Error {
  /** @param {string} why @param {number} at */
  constructor(why, at) {
    super(`${why}, at byte ${at}`);
    this.name = "Unknown";
  }
}

export class Reader {
  /**
   * Reads the bytes from `at` to `end`; places are those in the whole file.
   * @param {Uint8Array} bytes
   */
  constructor(bytes, at = 0, end = bytes.length) {
    this.bytes = bytes;
    this.at = at;
    this.end = end;
  }

  get isAtEnd() {
    return this.at === this.end;
  }

  byte() {
    const byte = this.bytes[this.at];
    if (this.at >= this.end || byte === undefined) throw new Unknown("the file ends too early", this.at);
    this.at++;
    return byte;
  }

  /** @param {number} count */
  skip(count) {
    if (count > this.end - this.at) throw new Unknown("the file ends too early", this.at);
    this.at += count;
  }

  // A number of up to 64 bits, as a BigInt, and the width that was read.
  groups() {
    let value = 0n, width = 0n;
    for (;;) {
      const byte = this.byte();
      value |= BigInt(byte & 0x7f) << width;
      width += 7n;
      if (width > 70n) throw new Unknown("a number of more than 64 bits", this.at);
      if (byte < 0x80) return { value, width, isNegative: (byte & 0x40) !== 0 };
    }
  }

  unsigned() {
    return this.groups().value;
  }

  signed() {
    const { value, width, isNegative } = this.groups();
    return isNegative ? value - (1n << width) : value;
  }

  // An unsigned number of 32 bits: a count, an index or an offset.
  count() {
    const at = this.at, value = this.unsigned();
    if (value >> 32n) throw new Unknown("a number of more than 32 bits", at);
    return Number(value);
  }

  /**
   * What was read since this place.
   * @param {number} at
   */
  since(at) {
    return this.bytes.subarray(at, this.at);
  }

  /**
   * A reader of the next bytes, which this one passes over.
   * @param {number} count
   */
  part(count) {
    const at = this.at;
    this.skip(count);
    return new Reader(this.bytes, at, at + count);
  }
}

/**
 * The shortest form of an unsigned number: a linker leaves room in those that it filled in later.
 * @param {number | bigint} value
 * @returns {number[]}
 */
export function unsigned(value) {
  const bytes = [];
  let left = BigInt(value);
  while (left > 0x7fn) {
    bytes.push(Number(left & 0x7fn) | 0x80);
    left >>= 7n;
  }
  return [...bytes, Number(left)];
}

/**
 * The same of a signed one.
 * @param {number | bigint} value
 * @returns {number[]}
 */
export function signed(value) {
  const bytes = [];
  let left = BigInt(value);
  while (left < -0x40n || left > 0x3fn) {
    bytes.push(Number(left & 0x7fn) | 0x80);
    left >>= 7n;
  }
  return [...bytes, Number(left & 0x7fn)];
}

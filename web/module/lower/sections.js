// The sections of a module (Core Specification, 5.5), rewritten for a memory and a table of 32 bits.

import { Reader, Unknown, signed, unsigned } from "./binary.js";
import { Body } from "./code.js";

const MAGIC_BYTES = 8;
const FUNCTION_TYPE = 0x60, I32_CONST = 0x41, I64_CONST = 0x42, END = 0x0b;
// The most pages of 64 KiB of a memory of 32 bits, and the most entries of such a table.
const MOST_PAGES = 1n << 16n, MOST_ENTRIES = (1n << 32n) - 1n;

/** @type {(parts: Iterable<number>[]) => Uint8Array} */
const joined = (parts) => Uint8Array.from(parts.flatMap((part) => [...part]));

/** @typedef {{is64: boolean, bytes: number[]}} Limits */

class Module {
  constructor() {
    /** @type {number[]} how many parameters each type has */
    this.parameters = [];
    /** @type {number[]} of each function */
    this.types = [];
    /** @type {Limits | null} */
    this.memory = null;
    /** @type {Limits | null} */
    this.table = null;
    this.bodies = 0;
  }

  /**
   * A list with each entry rewritten.
   * @param {Reader} reader
   * @param {(reader: Reader, number: number) => Iterable<number>} each
   */
  list(reader, each) {
    const many = reader.count();
    /** @type {Iterable<number>[]} */
    const parts = [unsigned(many)];
    for (let number = 0; number < many; number++) parts.push(each(reader, number));
    if (!reader.isAtEnd) throw new Unknown("bytes behind a list", reader.at);
    return joined(parts);
  }

  /**
   * The least and the most size of a memory or a table, without the flag of 64 bits.
   * @param {Reader} reader
   * @param {bigint} most
   * @returns {Limits}
   */
  limits(reader, most) {
    const at = reader.at, flags = reader.byte();
    if (flags & ~5) throw new Unknown("a shared memory, or pages of another size", at);
    const least = reader.unsigned(), bytes = [flags & 1, ...unsigned(least)];
    if (least > most) throw new Unknown("a memory or table that 32 bits cannot hold", at);
    if (flags & 1) {
      const given = reader.unsigned();
      bytes.push(...unsigned(given < most ? given : most));
    }
    return { is64: (flags & 4) !== 0, bytes };
  }

  /**
   * Where a segment begins.
   * @param {Reader} reader
   * @param {boolean} is64
   */
  offset(reader, is64) {
    const at = reader.at;
    if (reader.byte() !== (is64 ? I64_CONST : I32_CONST)) throw new Unknown("a segment whose place is no constant", at);
    const value = reader.signed();
    if (is64 && (value < 0n || value >> 32n)) throw new Unknown("a segment past 32 bits", at);
    if (reader.byte() !== END) throw new Unknown("a segment whose place is no constant", at);
    return [I32_CONST, ...signed(BigInt.asIntN(32, value)), END];
  }

  /** @param {Reader} reader */
  type(reader) {
    const at = reader.at;
    if (reader.byte() !== FUNCTION_TYPE) throw new Unknown("a type that is not of a function", at);
    const many = reader.count();
    this.parameters.push(many);
    reader.skip(many);
    reader.skip(reader.count());
    return reader.since(at);
  }

  /** @param {Reader} reader */
  declared(reader) {
    const type = reader.count();
    this.types.push(type);
    return unsigned(type);
  }

  /** @param {Reader} reader @param {number} number */
  tableOf(reader, number) {
    if (number) throw new Unknown("a second table", reader.at);
    const kind = reader.byte();
    this.table = this.limits(reader, MOST_ENTRIES);
    return [kind, ...this.table.bytes];
  }

  /** @param {Reader} reader @param {number} number */
  memoryOf(reader, number) {
    if (number) throw new Unknown("a second memory", reader.at);
    this.memory = this.limits(reader, MOST_PAGES);
    if (!this.memory.is64) throw new Unknown("a memory that has 32 bits already", reader.at);
    return this.memory.bytes;
  }

  /** @param {Reader} reader */
  elements(reader) {
    const at = reader.at;
    if (reader.count() !== 0) throw new Unknown("a segment of elements of another kind", at);
    const place = this.offset(reader, this.table?.is64 ?? false), names = reader.at;
    for (let left = reader.count(); left > 0; left--) reader.count();
    return [0, ...place, ...reader.since(names)];
  }

  /** @param {Reader} reader */
  data(reader) {
    const at = reader.at;
    if (reader.count() !== 0) throw new Unknown("a segment of data of another kind", at);
    const place = this.offset(reader, true), bytes = reader.at;
    reader.skip(reader.count());
    return [0, ...place, ...reader.since(bytes)];
  }

  /** @param {Reader} reader @param {number} number */
  body(reader, number) {
    const parameters = this.parameters[this.types[number] ?? -1];
    if (parameters === undefined) throw new Unknown("a body of no function", reader.at);
    const inner = reader.part(reader.count());
    const made = new Body(inner, parameters, this.table?.is64 ?? false).rewritten();
    this.bodies++;
    return joined([unsigned(made.length), made]);
  }

  /**
   * A section, or null where it goes.
   * @param {number} id
   * @param {Reader} reader
   */
  section(id, reader) {
    const start = reader.at;
    switch (id) {
      case 0: {
        const length = reader.count(), name = String.fromCharCode(...reader.bytes.subarray(reader.at, reader.at + length));
        // it names the memory of 64 bits among what a browser must have
        return name === "target_features" ? null : reader.bytes.subarray(start, reader.end);
      }
      case 1: return this.list(reader, (part) => this.type(part));
      case 2: throw new Unknown("an import", start);
      case 3: return this.list(reader, (part) => this.declared(part));
      case 4: return this.list(reader, (part, number) => this.tableOf(part, number));
      case 5: return this.list(reader, (part, number) => this.memoryOf(part, number));
      case 9: return this.list(reader, (part) => this.elements(part));
      case 10: return this.list(reader, (part, number) => this.body(part, number));
      case 11: return this.list(reader, (part) => this.data(part));
      case 6: case 7: case 8: case 12: return reader.bytes.subarray(start, reader.end);
      default: throw new Unknown(`a section ${id}`, start);
    }
  }
}

/**
 * A linked module whose memory has 64 bits, rewritten for one of 32: its bytes, and how many functions it has.
 * @param {Uint8Array} bytes
 * @throws {Unknown} where it holds anything else than what is known here
 */
export function lowered(bytes) {
  const reader = new Reader(bytes, MAGIC_BYTES), module = new Module();
  /** @type {Iterable<number>[]} */
  const parts = [bytes.subarray(0, MAGIC_BYTES)];
  while (!reader.isAtEnd) {
    const id = reader.byte(), made = module.section(id, reader.part(reader.count()));
    if (made) parts.push([id, ...unsigned(made.length)], made);
  }
  if (!module.memory) throw new Unknown("no memory", bytes.length);
  return { bytes: joined(parts), functions: module.bodies };
}

// The body of one function, rewritten for a memory and a table with addresses of 32 bits. Every value stays as it is, so an
// address is an i64 on the stack, and is wrapped to an i32 where an instruction takes it.

import { Unknown, signed, unsigned } from "./binary.js";

const I32 = 0x7f, I64 = 0x7e, F32 = 0x7d, F64 = 0x7c, V128 = 0x7b;

const LOCAL_GET = 0x20, LOCAL_SET = 0x21, LOCAL_TEE = 0x22, GLOBAL_GET = 0x23;
const I32_CONST = 0x41, I64_CONST = 0x42, F32_CONST = 0x43, F64_CONST = 0x44;
const SELECT = 0x1b, I64_EQZ = 0x50, I64_SHR_U = 0x88, I32_WRAP = 0xa7, I64_EXTEND_S = 0xac, I64_EXTEND_U = 0xad;

// What each instruction does that is more than itself: `load` and `store` take an address, the others are named alike.
const PLAIN = "plain", BLOCK = "block", INDEX = "index", BRANCHES = "branches", CALL = "call", TYPES = "types";
const LOAD = "load", STORE = "store", SIZE = "size", GROW = "grow", SIGNED = "signed", NARROW = "narrow", WIDE = "wide";

// The kinds of the instructions, by opcode (Core Specification, 5.4): ranges, first and last.
/** @type {[first: number, last: number, kind: string][]} */
const KINDS = [
  [0x00, 0x01, PLAIN], [0x02, 0x04, BLOCK], [0x05, 0x05, PLAIN], [0x0b, 0x0b, PLAIN], [0x0c, 0x0d, INDEX],
  [0x0e, 0x0e, BRANCHES], [0x0f, 0x0f, PLAIN], [0x10, 0x10, INDEX], [0x11, 0x11, CALL], [0x1a, 0x1b, PLAIN],
  [0x1c, 0x1c, TYPES], [0x20, 0x24, INDEX], [0x28, 0x35, LOAD], [0x36, 0x3e, STORE], [0x3f, 0x3f, SIZE],
  [0x40, 0x40, GROW], [0x41, 0x42, SIGNED], [0x43, 0x43, NARROW], [0x44, 0x44, WIDE], [0x45, 0xc4, PLAIN],
];
// The type of what a store writes.
const STORED = [I32, I64, F32, F64, I32, I32, I64, I64, I64];

// Instructions that only push a value: the address below it can be wrapped before them.
const PUSHES = new Set([LOCAL_GET, GLOBAL_GET, I32_CONST, I64_CONST, F32_CONST, F64_CONST]);

/** @type {(string | null)[]} */
const kinds = new Array(256).fill(null);
for (const [first, last, kind] of KINDS) kinds.fill(kind, first, last + 1);

export class Body {
  /**
   * @param {import("./binary.js").Reader} reader of a body's bytes
   * @param {number} parameters how many it has
   * @param {boolean} hasTable64 whether calls go through a table of 64 bits
   */
  constructor(reader, parameters, hasTable64) {
    this.reader = reader;
    this.hasTable64 = hasTable64;
    /** @type {number[]} */
    this.code = [];
    /** @type {[many: number, type: number][]} */
    this.groups = [];
    /** @type {Map<string, {type: number, number: number}>} */
    this.rooms = new Map();
    this.locals = parameters;
    for (let left = reader.count(); left > 0; left--) {
      const many = reader.count();
      this.groups.push([many, reader.byte()]);
      this.locals += many;
    }
    // Where the instruction before begins in the new code, and its opcode.
    this.last = { at: 0, opcode: -1 };
  }

  rewritten() {
    while (!this.reader.isAtEnd) this.instruction();
    const head = unsigned(this.groups.length + this.rooms.size);
    for (const [many, type] of this.groups) head.push(...unsigned(many), type);
    for (const { type } of this.rooms.values()) head.push(1, type);
    return Uint8Array.from([...head, ...this.code]);
  }

  /**
   * A local of this function's own, behind those that it has.
   * @param {string} name
   * @param {number} type
   */
  room(name, type) {
    const room = this.rooms.get(name) ?? { type, number: this.locals + this.rooms.size };
    this.rooms.set(name, room);
    return unsigned(room.number);
  }

  /** @param {number[]} bytes */
  put(...bytes) {
    for (const byte of bytes) this.code.push(byte);
  }

  instruction() {
    const { reader } = this, start = reader.at, at = this.code.length, opcode = reader.byte();
    if (opcode === 0xfc) this.prefixed(start);
    else if (opcode === 0xfd) this.vector(start);
    else this.simple(opcode, start);
    this.last = { at, opcode };
  }

  /** @param {number} opcode @param {number} start */
  simple(opcode, start) {
    const { reader } = this;
    switch (kinds[opcode]) {
      case PLAIN: return this.put(opcode);
      case BLOCK: return this.put(opcode, ...signed(reader.signed()));
      case INDEX: return this.put(opcode, ...unsigned(reader.count()));
      case SIGNED: return this.put(opcode, ...signed(reader.signed()));
      case NARROW: return this.copy(start, 4);
      case WIDE: return this.copy(start, 8);
      case TYPES: return this.copy(start, reader.count());
      case LOAD: return this.put(I32_WRAP, opcode, ...this.access());
      case STORE: return this.store(/** @type {number} */ (STORED[opcode - 0x36]), [opcode, ...this.access()]);
      case BRANCHES:
        for (let left = reader.count(); left >= 0; left--) reader.count();
        return this.copy(start, 0);
      case CALL: return this.callByTable(start);
      case SIZE: return this.put(opcode, this.only(0), I64_EXTEND_U);
      case GROW: return this.grow(opcode);
      default: throw new Unknown(`the instruction 0x${opcode.toString(16)}`, start);
    }
  }

  /**
   * The instruction as it stands, with so many bytes behind what was read of it.
   * @param {number} start
   * @param {number} count
   */
  copy(start, count) {
    this.reader.skip(count);
    this.put(...this.reader.since(start));
  }

  /**
   * A byte that has to be this one: there are one memory and one table.
   * @param {number} wanted
   */
  only(wanted) {
    const at = this.reader.at, byte = this.reader.byte();
    if (byte !== wanted) throw new Unknown("another memory or table", at);
    return byte;
  }

  // Alignment and offset of an access.
  access() {
    const at = this.reader.at, alignment = this.reader.count();
    if (alignment > 0x3f) throw new Unknown("an access to another memory", at);
    return [alignment, ...unsigned(this.reader.count())];
  }

  /**
   * A store: the address lies under the value.
   * @param {number} type
   * @param {number[]} instruction
   */
  store(type, instruction) {
    const { at, opcode } = this.last;
    if (PUSHES.has(opcode)) {
      this.code.splice(at, 0, I32_WRAP);
    } else if (opcode === LOCAL_TEE) {
      const local = this.code.splice(at).slice(1);
      this.put(LOCAL_SET, ...local, I32_WRAP, LOCAL_GET, ...local);
    } else {
      const room = this.room(`value ${type}`, type);
      this.put(LOCAL_SET, ...room, I32_WRAP, LOCAL_GET, ...room);
    }
    this.put(...instruction);
  }

  /** @param {number} start */
  callByTable(start) {
    this.reader.count();
    this.only(0);
    if (this.hasTable64) this.put(I32_WRAP);
    this.copy(start, 0);
  }

  /**
   * memory.grow by a number of pages of 64 bits: more than 32 bits of them are refused, as -1 pages are, which are too many
   * for any memory of 32 bits; and a refusal is -1 in 64 bits too.
   * @param {number} opcode
   */
  grow(opcode) {
    const pages = this.room("pages", I64);
    this.put(LOCAL_SET, ...pages, LOCAL_GET, ...pages, I32_WRAP, I32_CONST, ...signed(-1));
    this.put(LOCAL_GET, ...pages, I64_CONST, ...signed(32), I64_SHR_U, I64_EQZ, SELECT);
    this.put(opcode, this.only(0), I64_EXTEND_S);
  }

  /**
   * The instructions behind 0xfc: conversions that saturate; memory.copy and memory.fill with three operands.
   * @param {number} start
   */
  prefixed(start) {
    const { reader } = this, number = reader.count();
    if (number <= 7) return this.copy(start, 0);
    if (number !== 10 && number !== 11) throw new Unknown(`the instruction 0xfc ${number}`, start);
    const isCopy = number === 10, count = this.room("count", I64);
    const second = isCopy ? this.room("from", I64) : this.room(`value ${I32}`, I32);
    this.put(LOCAL_SET, ...count, LOCAL_SET, ...second, I32_WRAP, LOCAL_GET, ...second);
    if (isCopy) this.put(I32_WRAP);
    this.put(LOCAL_GET, ...count, I32_WRAP, 0xfc, number, this.only(0));
    if (isCopy) this.put(this.only(0));
    return undefined;
  }

  /**
   * The instructions on vectors of 128 bits (5.4.8).
   * @param {number} start
   */
  vector(start) {
    const { reader } = this, number = reader.count();
    const head = [0xfd, ...unsigned(number)];
    if (number <= 10 || number === 92 || number === 93) this.put(I32_WRAP, ...head, ...this.access());
    else if (number === 11) this.store(V128, [...head, ...this.access()]);
    else if (number >= 84 && number <= 91) this.store(V128, [...head, ...this.access(), reader.byte()]);
    else if (number === 12 || number === 13) this.copy(start, 16);
    else if (number >= 21 && number <= 34) this.copy(start, 1);
    else if (number <= 0xff) this.copy(start, 0);
    else throw new Unknown(`the instruction 0xfd ${number}`, start);
  }
}

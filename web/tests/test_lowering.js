// A module for memories of 64 bits, rewritten for those of 32: what each kind of instruction does is what it did, and what
// is not known stops the rewriting.

import assert from "node:assert/strict";
import { existsSync, readFileSync, writeFileSync } from "node:fs";
import { join } from "node:path";
import { spawnSync } from "node:child_process";
import { MODULE, REPOSITORY, room } from "./support.js";
import { Reader, Unknown, signed, unsigned } from "../module/lower/binary.js";
import { lowered } from "../module/lower/sections.js";
import { skip, suite, test } from "../../tools/tests/harness.js";

const has = (name) => spawnSync(name, ["--version"]).status === 0;

// The bytes of a module in WebAssembly's text format.
function assembled(text) {
  if (!has("wat2wasm")) skip("wat2wasm is not installed (Debian: wabt)");
  const folder = room(), [from, to] = [join(folder, "it.wat"), join(folder, "it.wasm")];
  writeFileSync(from, text);
  const made = spawnSync("wat2wasm", ["--enable-memory64", from, "-o", to], { encoding: "utf8" });
  assert.equal(made.status, 0, made.stderr);
  return readFileSync(to);
}

function validate(bytes) {
  if (!has("wasm-validate")) return;
  const path = join(room(), "it.wasm");
  writeFileSync(path, bytes);
  const told = spawnSync("wasm-validate", [path], { encoding: "utf8" });
  assert.equal(told.status, 0, told.stderr);
}

// What was rewritten is what was there, as web/module/compare.py finds too.
function compare(wide, narrow) {
  const folder = room(), paths = ["wide.wasm", "narrow.wasm"].map((name) => join(folder, name));
  [wide, narrow].forEach((bytes, at) => writeFileSync(paths[at], bytes));
  const told = spawnSync("python3", [join(REPOSITORY, "web", "module", "compare.py"), ...paths], { encoding: "utf8" });
  assert.equal(told.status, 0, told.stderr);
}

const started = (text) => {
  const wide = assembled(text), { bytes } = lowered(wide);
  validate(bytes);
  compare(wide, bytes);
  return new WebAssembly.Instance(new WebAssembly.Module(bytes)).exports;
};

// A module by its sections, each an id and its bytes.
const sections = (...parts) =>
  Uint8Array.from([0, 0x61, 0x73, 0x6d, 1, 0, 0, 0, ...parts.flatMap(([id, ...bytes]) => [id, bytes.length, ...bytes])]);
const MEMORY = [5, 1, 4, 1];
const ONE_FUNCTION = [[1, 1, 0x60, 0, 0], [3, 1, 0]];
const withCode = (...code) => sections(...ONE_FUNCTION, MEMORY, [10, 1, code.length + 2, 0, ...code, 0x0b]);

const TYPES = { i32: 4, i64: 8, f32: 4, f64: 8 };

suite("numbers", () => {
  test("the shortest forms", () => {
    for (const value of [0n, 1n, 63n, 64n, 127n, 128n, 2n ** 32n - 1n, 2n ** 64n - 1n]) {
      assert.equal(new Reader(unsigned(value)).unsigned(), value);
    }
    for (const value of [0n, 63n, 64n, -1n, -64n, -65n, 2n ** 63n - 1n, -(2n ** 63n)]) {
      assert.equal(new Reader(signed(value)).signed(), value);
    }
    assert.deepEqual([unsigned(128), signed(64), signed(-64)], [[0x80, 1], [0xc0, 0], [0x40]]);
  });

  test("too long, or cut off", () => {
    assert.throws(() => new Reader(new Uint8Array(11).fill(0x80)).unsigned(), Unknown);
    assert.throws(() => new Reader([0x80]).unsigned(), /ends too early, at byte 1/);
    assert.throws(() => new Reader(unsigned(2n ** 32n)).count(), /more than 32 bits, at byte 0/);
  });
});

suite("instructions", () => {
  for (const [type, size] of Object.entries(TYPES)) {
    test(`stores of ${type}, behind each kind of value, and loads`, () => {
      const values = { constant: `(${type}.const 7)`, local: "(local.get $value)", global: "(global.get $global)",
        tee: `(local.tee $other (${type}.add (local.get $value) (${type}.const 1)))`,
        computed: `(${type}.add (local.get $value) (${type}.const 2))` };
      const functions = Object.entries(values).map(([name, value]) => `(func (export "${name}") (param $at i64)
        (param $value ${type}) (result ${type}) (local $other ${type})
        (${type}.store offset=16 (local.get $at) ${value})
        (${type}.add (${type}.load offset=16 (local.get $at)) (local.get $other)))`);
      const made = started(`(module (memory (export "memory") i64 1) (global $global ${type} (${type}.const 9)) ${functions.join("\n")})`);
      const given = type === "i64" ? 40n : 40, number = (value) => type === "i64" ? BigInt(value) : value;
      assert.deepEqual(["constant", "local", "global", "computed"].map((name) => made[name](1024n, given)),
        [7, 40, 9, 42].map(number));
      // (the value and the local that keeps it)
      assert.equal(made.tee(2048n, given), number(82));
      const bytes = new Uint8Array(made.memory.buffer);
      assert.ok(bytes.subarray(1040, 1040 + size).some((byte) => byte) && !bytes.subarray(1040 + size, 2064).some((byte) => byte));
    });
  }

  test("vectors: loads, stores, lanes", () => {
    const made = started(`(module (memory (export "memory") i64 1)
      (func (export "double") (param $at i64)
        (v128.store (local.get $at) (i64x2.add (v128.load (local.get $at)) (v128.load (local.get $at)))))
      (func (export "lane") (param $at i64) (result i64)
        (v128.store64_lane 1 (i64.add (local.get $at) (i64.const 32))
          (v128.load64_lane 1 (local.get $at) (v128.const i64x2 5 6)))
        (i64.load offset=32 (local.get $at)))
      (func (export "splat") (param $at i64) (result i32)
        (i32x4.extract_lane 3 (v128.load32_splat (local.get $at)))))`);
    new BigUint64Array(made.memory.buffer, 64, 2).set([21n, 4n]);
    made.double(64n);
    assert.deepEqual([...new BigUint64Array(made.memory.buffer, 64, 2)], [42n, 8n]);
    assert.deepEqual([made.lane(64n), made.splat(64n)], [42n, 42]);
  });

  test("memory: copy, fill, size, grow", () => {
    const made = started(`(module (memory (export "memory") i64 1 3)
      (func (export "copy") (param i64 i64 i64) (memory.copy (local.get 0) (local.get 1) (local.get 2)))
      (func (export "fill") (param i64 i32 i64) (memory.fill (local.get 0) (local.get 1) (local.get 2)))
      (func (export "size") (result i64) memory.size)
      (func (export "grow") (param i64) (result i64) (memory.grow (local.get 0))))`);
    made.fill(10n, 7, 3n);
    made.copy(100n, 9n, 5n);
    assert.deepEqual([...new Uint8Array(made.memory.buffer, 100, 5)], [0, 7, 7, 7, 0]);
    assert.deepEqual([made.size(), made.grow(1n), made.size()], [1n, 1n, 2n]);
    // refused: one more than there may be, a number past 32 bits whose lower half would fit, and -1
    assert.deepEqual([2n, 2n ** 32n, 2n ** 32n + 1n, -1n].map((pages) => made.grow(pages)), [-1n, -1n, -1n, -1n]);
    assert.deepEqual([made.size(), made.grow(0n)], [2n, 2n]);
  });

  test("branches, blocks and calls by a table stay", () => {
    const made = started(`(module (memory i64 1) (table 2 funcref) (elem (i32.const 0) $one $two)
      (func $one (result i64) (i64.const 1)) (func $two (result i64) (i64.const 2))
      (func (export "call") (param i32) (result i64) (call_indirect (result i64) (local.get 0)))
      (func (export "which") (param i32) (result i32)
        (block $c (block $b (block $a (br_table $a $b $c (local.get 0))) (return (i32.const 10))) (return (i32.const 11)))
        (i32.const 12))
      (func (export "sum") (param $n i64) (result i64) (local $sum i64)
        (loop $more (local.set $sum (i64.add (local.get $sum) (local.get $n)))
          (br_if $more (i64.ne (local.tee $n (i64.sub (local.get $n) (i64.const 1))) (i64.const 0))))
        (local.get $sum)))`);
    assert.deepEqual([made.call(0), made.call(1), made.sum(10n)], [1n, 2n, 55n]);
    assert.deepEqual([0, 1, 2, 9].map((it) => made.which(it)), [10, 11, 12, 12]);
  });

  test("a table of 64 bits, and its elements", () => {
    // (i64.const 1) call_indirect 0 0, by a table of two entries, of which the second is the function 0: it drops nothing
    const call = [0x42, 1, 0x11, 0, 0];
    const wide = sections([1, 1, 0x60, 0, 0], [3, 2, 0, 0], [4, 1, 0x70, 4, 2], MEMORY,
      [7, 1, 2, 0x67, 0x6f, 0, 1], [9, 1, 0, 0x42, 1, 0x0b, 1, 0], [10, 2, 2, 0, 0x0b, call.length + 2, 0, ...call, 0x0b]);
    const { bytes } = lowered(wide);
    validate(bytes);
    compare(wide, bytes);
    new WebAssembly.Instance(new WebAssembly.Module(bytes)).exports.go();
  });
});

suite("what is not known stops it", () => {
  const stops = (name, bytes, why) => test(name, () => assert.throws(() => lowered(bytes), (fault) =>
    fault instanceof Unknown && why.test(fault.message)));
  stops("no memory", sections(), /no memory/);
  stops("a memory of 32 bits", sections([5, 1, 0, 1]), /32 bits already/);
  stops("a shared memory", sections([5, 1, 7, 1, 2]), /shared/);
  stops("two memories", sections([5, 2, 4, 1, 4, 1]), /second memory/);
  stops("a memory past 4 GiB", sections([5, 1, 4, ...unsigned(65537)]), /cannot hold/);
  stops("an import", sections([2, 1, 1, 0x61, 1, 0x62, 0, 0]), /an import/);
  stops("a passive segment", sections(MEMORY, [11, 1, 1, 1, 0]), /another kind/);
  stops("a segment past 32 bits", sections(MEMORY, [11, 1, 0, 0x42, ...signed(2n ** 32n), 0x0b, 0]), /past 32 bits/);
  stops("a segment at a global", sections(MEMORY, [11, 1, 0, 0x23, 0, 0x0b, 0]), /no constant/);
  stops("a section that is unknown", sections([14, 0]), /a section 14/);
  stops("an atomic instruction", withCode(0xfe, 0x03, 0x00), /instruction 0xfe/);
  stops("a reference", withCode(0xd0, 0x70, 0x1a), /instruction 0xd0/);
  stops("memory.init", withCode(0xfc, 8, 0, 0), /instruction 0xfc 8/);
  stops("a relaxed vector instruction", withCode(0xfd, 0x80, 0x02), /instruction 0xfd 256/);
  stops("an access past 32 bits", withCode(0x42, 0, 0x28, 2, ...unsigned(2n ** 32n), 0x1a), /more than 32 bits/);
  stops("an access to another memory", withCode(0x42, 0, 0x28, 0x42, 0, 0, 0x1a), /another memory/);
  stops("a body that is cut off", sections(...ONE_FUNCTION, MEMORY, [10, 1, 9, 0, 0x0b]), /ends too early/);
  stops("a body more than there are functions", sections(...ONE_FUNCTION, MEMORY, [10, 2, 2, 0, 0x0b, 2, 0, 0x0b]), /a body of no function/);
});

suite("the station's module", () => {
  test("is for memories of 32 bits, and valid", () => {
    if (!existsSync(MODULE)) skip("web/out/station.wasm is not built");
    const bytes = readFileSync(MODULE);
    validate(bytes);
    assert.throws(() => lowered(bytes), /32 bits already/);
    const { memory, camplot_open: open } = new WebAssembly.Instance(new WebAssembly.Module(bytes)).exports;
    assert.ok(memory.buffer.byteLength > 0);
    // pointers are BigInts as in the 64-bit module
    assert.equal(open(0, 0n) > 0, true);
  });
});

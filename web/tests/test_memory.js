// Where the machine gives the module no more memory: what asks for it is refused with 30, and nothing is lost.

import assert from "node:assert/strict";
import { existsSync, readFileSync } from "node:fs";
import { MODULE, gerber } from "./support.js";
import { Station } from "../package/index.js";
import { skip, suite, test } from "../../tools/tests/harness.js";
import { unsigned } from "../module/lower/binary.js";

const HEAD = 8, MEMORY = 5;

// The number at a place of the module (LEB128), and the place behind it.
function numberAt(bytes, at) {
  let value = 0, shift = 0;
  for (;; at++, shift += 7) {
    value |= (bytes[at] & 0x7f) << shift;
    if (bytes[at] < 0x80) return [value, at + 1];
  }
}

// The module with a memory that grows by so many pages of 64 KiB at most.
function withPages(bytes, more) {
  for (let at = HEAD; at < bytes.length;) {
    const [size, body] = numberAt(bytes, at + 1);
    if (bytes[at] === MEMORY) {
      const [count, flags] = numberAt(bytes, body), [least] = numberAt(bytes, flags + 1);
      assert.equal(count, 1);
      const section = [1, 1, ...unsigned(BigInt(least)), ...unsigned(BigInt(least + more))];
      return Buffer.concat([bytes.subarray(0, at), Buffer.from([MEMORY, ...unsigned(BigInt(section.length)), ...section]),
        bytes.subarray(body + size)]);
    }
    at = body + size;
  }
  throw new Error("the module has no memory");
}

const flashes = (count) => gerber(...Array.from({ length: count }, (_, at) => `X${at % 1000 * 100000}Y${Math.floor(at / 1000) * 100000}D03*`));

suite("a module that gets no more memory", () => {
  test("refuses what asks for it, and keeps all that there is", async () => {
    if (!existsSync(MODULE)) skip("web/out/station.wasm is not built");
    const module = await WebAssembly.compile(withPages(readFileSync(MODULE), 160)), station = await Station.open({ module });
    const large = flashes(100000);
    assert.equal(station.apply("load top gerber a", flashes(2000)).reply, "ok 2000");
    station.run("move top 7 1000 0");
    const before = station.run("write top t");
    assert.deepEqual([station.apply("load large gerber b", large)].map(({ code, reply }) => [code, reply.split(" ")[1]]), [[30, "30"]]);
    // A window of a gigabyte of pixels.
    assert.equal(station.apply("window 0 0 1000 32768 32768").code, 30);
    assert.equal(station.apply("list").reply, "ok 1 1 0");
    assert.deepEqual(station.run("write top t"), before);
    station.run("window 0 0 1000000 200 20");
    assert.ok(station.run("plot top p").length > 20 * 25);
    station.run("undo");
    assert.equal(station.apply("list").reply, "ok 1 0 1");
    station.close();
    // The same lines are accepted where memory lasts.
    const whole = await Station.open({ module: await WebAssembly.compile(readFileSync(MODULE)) });
    assert.equal(whole.apply("load large gerber b", large).reply, "ok 100000");
    whole.close();
  });
});

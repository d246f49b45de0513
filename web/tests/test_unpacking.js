// ZIP files as the page reads them, in node: what is whole, by the bytes of each file; what is not, by the words about it.

import assert from "node:assert/strict";
import { archive } from "./archives.js";
import { filesOfArchive } from "../zip/unpacking.js";
import { withUnpacked } from "../zip/archives.js";
import { zipOf } from "../zip/packing.js";
import { suite, test } from "../../tools/tests/harness.js";

const text = (words) => Buffer.from(words);
const pads = text("G04 pads*\n".repeat(1000));
const read = async (bytes) => {
  const { files, faults } = await filesOfArchive(bytes, "a.zip");
  return { files: files.map(({ path }) => path), faults, bytes: files.map((file) => Buffer.from(file.bytes)) };
};

// The words about an archive with one entry that is spoiled, next to one that is whole and is still read.
async function spoiled(entry, more = {}) {
  const { files, faults } = await read(archive([{ name: "bad", bytes: pads, ...entry }, { name: "good", bytes: text("x") }], more));
  assert.equal(faults.length, 1);
  assert.deepEqual(files, ["good"]);
  return faults[0];
}

async function unread(bytes) {
  const { files, faults } = await read(bytes);
  assert.deepEqual([files, faults.length], [[], 1]);
  return faults[0];
}

suite("ZIP files that are whole", () => {
  test("stored and deflated files, in folders, with a comment", async () => {
    const { files, faults, bytes } = await read(archive([{ name: "board/" }, { name: "board/a.gtl", bytes: pads },
      { name: "board/in/b.drl", bytes: text("M48\n"), method: 0 }, { name: "empty.gbl", bytes: text("") }], { comment: "PK\x05\x06 a board" }));
    assert.deepEqual(faults, []);
    assert.deepEqual(files, ["board/a.gtl", "board/in/b.drl", "empty.gbl"]);
    assert.deepEqual(bytes, [pads, text("M48\n"), text("")]);
  });

  test("what the page itself packs", async () => {
    const whole = Buffer.concat(zipOf([{ name: "a/ü.gbr", bytes: pads }, { name: "b", bytes: text("") }]).map((part) => Buffer.from(part)));
    const { files, bytes } = await read(whole);
    assert.deepEqual(files, ["a/ü.gbr", "b"]);
    assert.deepEqual(bytes, [pads, text("")]);
  });

  test("names in UTF-8 with and without its mark, in code page 437, and with the other stroke", async () => {
    const { files } = await read(archive([{ name: "Leiterzüge.gtl", bytes: pads }, { name: "Kupfer_ö.gbl", bytes: pads, flags: 0 },
      { raw: Buffer.from([0x4c, 0x94, 0x74]), bytes: pads, flags: 0 }, { name: "in\\out.gto", bytes: pads }, { name: "./here.gko", bytes: pads }]));
    assert.deepEqual(files, ["Leiterzüge.gtl", "Kupfer_ö.gbl", "Löt", "in/out.gto", "here.gko"]);
  });

  test("what a Mac puts beside the files is left out", async () => {
    const { files, faults } = await read(archive([{ name: "a.gtl", bytes: pads }, { name: "__MACOSX/._a.gtl", bytes: pads },
      { name: "x/.DS_Store", bytes: pads }, { name: "x/._b.gbl", bytes: pads }]));
    assert.deepEqual([files, faults], [["a.gtl"], []]);
  });

  test("files next to them stay as they are", async () => {
    const { files, faults, isAny } = await withUnpacked([{ name: "one", bytes: text("1") },
      { name: "a.zip", bytes: archive([{ name: "two", bytes: text("2") }]) }, { name: "three", bytes: text("3") }], filesOfArchive);
    assert.deepEqual([files.map(({ name }) => name), faults, isAny], [["one", "two", "three"], [], true]);
    assert.equal((await withUnpacked([{ name: "one", bytes: text("PK") }], filesOfArchive)).isAny, false);
  });
});

suite("ZIP files that are spoiled", () => {
  test("a file is told by its name and why, and the others are read", async () => {
    assert.equal(await spoiled({ flags: 1 }), "a.zip: bad is not read: it is encrypted.");
    assert.equal(await spoiled({ method: 12 }), "a.zip: bad is not read: it is packed by method 12, and only stored and deflated files are read.");
    for (const said of [{ crc: 7 }, { size: 9000 }, { size: 20000 }, { packed: text("no deflated bytes") }]) {
      assert.equal(await spoiled(said), "a.zip: bad is not read: its packed bytes do not make the size and the checksum that the list says.");
    }
    assert.equal(await spoiled({ crc: 7, method: 0 }), "a.zip: bad is not read: its checksum is another one than the list says.");
    assert.equal(await spoiled({ size: 9, method: 0 }), "a.zip: bad is not read: it has 10,000 bytes, and the list says 9.");
    assert.equal(await spoiled({ local: text("dab") }), "a.zip: bad is not read: it has another name than in the list.");
    assert.equal(await spoiled({ bytes: archive([]) }), "a.zip: bad is not read: it is a ZIP file itself: unpack it.");
  });

  test("a name that is no path in the archive", async () => {
    for (const name of ["../a.gtl", "/etc/a.gtl", "a/../../b.gtl", "C:\\a.gtl", "..\\a.gtl"]) {
      assert.match(await spoiled({ name }), /is not read: its name is no path in the archive\.$/);
    }
    assert.equal(await spoiled({ name: "a\nb" }), "a.zip: a\\nb is not read: its name is no path in the archive.");
  });

  test("a deflated file that goes on behind its end", async () => {
    const packed = Buffer.concat([Buffer.from("4b0400", "hex"), text("more")]);
    assert.match(await spoiled({ bytes: text("a"), packed }), /its packed bytes do not make the size/);
  });

  test("an archive that is not whole, or of a form that is not read", async () => {
    const whole = archive([{ name: "a", bytes: pads }, { name: "b", bytes: pads, method: 0 }]);
    for (const length of [4, 100, whole.length - 60, whole.length - 1]) {
      assert.equal(await unread(whole.subarray(0, length)), "a.zip is not read: it has no end, so it is not whole.");
    }
    assert.match(await unread(archive([{ name: "a", bytes: pads }], { behind: "more" })), /it has no end/);
    assert.match(await unread(archive([{ name: "a", bytes: pads }], { count: 2 })), /its list of files is broken/);
    assert.match(await unread(archive([{ name: "a", bytes: pads }], { start: 3 })), /its list of files is broken/);
    assert.match(await unread(archive([{ name: "a", bytes: pads }], { count: 0xffff })), /ZIP64/);
    assert.match(await unread(archive([{ name: "a", bytes: pads }], { start: 0xffffffff })), /ZIP64/);
    assert.match(await unread(archive([])), /^a\.zip holds no files\.$/);
  });

  test("more bytes than are read, which are not unpacked", async () => {
    const bomb = Array.from({ length: 5 }, (_, at) => ({ name: `${at}`, bytes: pads, size: 2 ** 28 }));
    assert.equal(await unread(archive(bomb)), "a.zip is not read: its files have 1,342,177,280 bytes unpacked, and 1,073,741,824 are read at most.");
  });

  test("any byte that is turned: each file is what it was, or is told", async () => {
    const one = text("M48\nMETRIC\n".repeat(20)), whole = archive([{ name: "a.drl", bytes: one }, { name: "b.gtl", bytes: text("G04 b*\n"), method: 0 }]);
    for (let at = 0; at < whole.length; at++) {
      const turned = Buffer.from(whole);
      turned[at] ^= 1 << at % 8;
      const { files, faults, bytes } = await read(turned);
      if (!faults.length) assert.ok(files.length === 2 && bytes[0].equals(one) && bytes[1].equals(text("G04 b*\n")), `byte ${at}`);
      else for (const found of bytes) assert.ok(found.equals(one) || found.equals(text("G04 b*\n")), `byte ${at}`);
    }
  });
});

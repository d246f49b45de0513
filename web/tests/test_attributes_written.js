// Canonical texts with attributes, beside the program; and what is lost without them.

import assert from "node:assert/strict";
import { readFileSync } from "node:fs";
import { join } from "node:path";
import { part, suite, test } from "../../tools/tests/harness.js";
import { EXAMPLES } from "./support.js";
import { canonicalTexts, filesUnder, ran } from "./stations.js";
import { kindOf } from "../board/file_kinds.js";
import { latin1, latin1Bytes } from "../bytes/text.js";
import { begun, carried, saidOf } from "../attributes/carry.js";
import { dropped, droppedWords } from "../attributes/dropped.js";
import { readAttributes } from "../attributes/read.js";
import { NotTheSame, checkedWithAttributes, withAttributes } from "../attributes/write.js";

const HEAD = "%FSLAX46Y46*%\n%MOMM*%\n%ADD10C,1*%\n%ADD11R,2X1*%\nG75*\nD10*\n";

// The text with its attributes, by the program's canonical text; without its first lines and the dictionary.
function written(text) {
  const bytes = latin1Bytes(`${HEAD}${text}M02*\n`), [canonical] = canonicalTexts([bytes]);
  const { items, apertures, blocks } = readAttributes(bytes);
  const whole = latin1(withAttributes(canonical, items, apertures, blocks));
  return whole.slice(whole.indexOf("D10*\n"));
}

suite("texts with attributes", () => {
  test("say what differs from object to object", () => {
    assert.equal(written("%TO.N,A*%\n%TO.P,R1,1*%\nX0Y0D03*\nX1Y0D03*\n%TO.P,R1,2*%\nX2Y0D03*\n%TD.P*%\nX3Y0D03*\n%TD*%\nX4Y0D03*\n"),
      "D10*\n%TO.N,A*%\n%TO.P,R1,1*%\nX0Y0D03*\nX1Y0D03*\n%TO.P,R1,2*%\nX2Y0D03*\n%TD.P*%\nX3Y0D03*\n%TD.N*%\nX4Y0D03*\nM02*\n");
  });

  test("delete all where that takes fewer lines", () => {
    assert.equal(written("%TOa*%\n%TOb*%\n%TOc*%\nX0Y0D03*\n%TD*%\n%TOd*%\nX1Y0D03*\n"),
      "D10*\n%TOa*%\n%TOb*%\n%TOc*%\nX0Y0D03*\n%TD*%\n%TOd*%\nX1Y0D03*\nM02*\n");
  });

  test("delete an attribute without a name with all", () => {
    assert.equal(written("%TO,x*%\n%TOb*%\nX0Y0D03*\n%TD*%\n%TOb*%\nX1Y0D03*\n"),
      "D10*\n%TO,x*%\n%TOb*%\nX0Y0D03*\n%TD*%\n%TOb*%\nX1Y0D03*\nM02*\n");
  });

  test("stand before what makes an object, and outside of regions", () => {
    assert.equal(written("%TO.N,A*%\nX1Y0D02*\nX5Y0D01*\nG36*\n%TO.N,B*%\nX0Y0D02*\nX1D01*\nY1D01*\nG37*\n"),
      "D10*\nX1Y0D02*\n%TO.N,A*%\nX5Y0D01*\n%TO.N,B*%\nG36*\nX0Y0D02*\nX1Y0D01*\nX1Y1D01*\nG37*\nM02*\n");
  });

  test("give regions their aperture attributes, and to others none that they do not need", () => {
    assert.equal(written("%TA.AperFunction,Conductor*%\n%TO.N,A*%\nX0Y0D03*\nG36*\nX0Y0D02*\nX1D01*\nG37*\nX0Y0D03*\n%TD.AperFunction*%\n"
      + "G36*\nX0Y0D02*\nX2D01*\nG37*\n"),
    "D10*\n%TO.N,A*%\nX0Y0D03*\n%TA.AperFunction,Conductor*%\nG36*\nX0Y0D02*\nX1Y0D01*\nG37*\nX0Y0D03*\n%TD.AperFunction*%\n"
      + "G36*\nX0Y0D02*\nX2Y0D01*\nG37*\nM02*\n");
  });

  test("have those of comments as commands, a % as its escape", () => {
    assert.equal(written("G04 #@! TO.N,50%*\nX0Y0D03*\n"), "D10*\n%TO.N,50\\u0025*%\nX0Y0D03*\nM02*\n");
  });

  test("have an attribute in one line", () => {
    assert.equal(written("%TO.N,A\r\nB,\n\\u002C*%\nX0Y0D03*\n"), "D10*\n%TO.N,AB,\\u002C*%\nX0Y0D03*\nM02*\n");
  });

  test("have other items than are said: refused", () => {
    const bytes = latin1Bytes(`${HEAD}X0Y0D03*\nX1Y0D03*\nM02*\n`), [canonical] = canonicalTexts([bytes]);
    const { items, apertures, blocks } = readAttributes(bytes);
    assert.throws(() => withAttributes(canonical, items.slice(1), apertures, blocks), /more objects than something is said of/);
    assert.throws(() => withAttributes(canonical, [...items, items[0]], apertures, blocks), /fewer objects than something is said of/);
  });
});

suite("a station that loads the text", () => {
  for (const [folder, least] of [["examples", 9], ["tools/cases", 48], ["black_box/cases", 300]]) {
    test(`makes the same layer of every file of ${folder} that loads`, async () => {
      const files = [...filesUnder(folder)].filter(({ bytes }) => kindOf(bytes) === "gerber").map((file) => file.bytes);
      const all = canonicalTexts(files);
      const loaded = files.flatMap((bytes, at) => all[at] === null ? [] : [{ canonical: all[at], reading: readAttributes(bytes) }]);
      assert.ok(loaded.length >= least);
      const made = loaded.map(({ canonical, reading: { items, apertures, blocks } }) => withAttributes(canonical, items, apertures, blocks));
      const again = canonicalTexts(made);
      for (let at = 0; at < loaded.length; at++) {
        const { canonical, reading: { items, apertures, blocks } } = loaded[at];
        const bytes = await checkedWithAttributes(canonical, items, apertures, blocks, () => again[at]);
        assert.deepEqual(bytes, made[at]);
      }
    });
  }

  test("is asked for attributes at random", async () => {
    const files = Array.from({ length: 64 }, (_, seed) => randomFile(seed + 1)), all = canonicalTexts(files);
    const readings = files.map((bytes) => readAttributes(bytes));
    const made = readings.map(({ items, apertures, blocks }, at) => withAttributes(all[at], items, apertures, blocks));
    const again = canonicalTexts(made);
    for (let at = 0; at < files.length; at++) {
      const { items, apertures, blocks } = readings[at];
      await part(latin1(files[at]), () => checkedWithAttributes(all[at], items, apertures, blocks, () => again[at]));
    }
    assert.ok(readings.some(({ items }) => items.some(({ attributes }) => attributes.length > 2)));
  });

  test("is not trusted", async () => {
    const bytes = latin1Bytes(`${HEAD}%TO.N,A*%\nX0Y0D03*\nM02*\n`), [canonical] = canonicalTexts([bytes]);
    const { items, apertures, blocks } = readAttributes(bytes);
    const given = (load) => checkedWithAttributes(canonical, items, apertures, blocks, load);
    assert.match(latin1(await given(async () => canonical)), /%TO\.N,A\*%/);
    await assert.rejects(given(() => canonical.subarray(1)), NotTheSame);
    await assert.rejects(given(() => { throw new Error("refused 3"); }), /refused 3/);
  });
});

// Objects of all kinds, with attributes of few names that are set and deleted between them.
function randomFile(seed) {
  let state = seed;
  const below = (count) => {
    state = (state + 0x6d2b79f5) | 0;
    let mixed = Math.imul(state ^ (state >>> 15), 1 | state);
    mixed = (mixed + Math.imul(mixed ^ (mixed >>> 7), 61 | mixed)) ^ mixed;
    return ((mixed ^ (mixed >>> 14)) >>> 0) % count;
  };
  const name = () => [".N", ".P", "x", ".AperFunction", "", "\xc3\xa9", " b", ".N\n"][below(8)];
  const said = () => {
    const set = () => `%T${"AO"[below(2)]}${name()}${["", ",1", ",2,\\u0025", ",", ",a\r\nb"][below(5)]}*%\n`;
    return [set, set, set, () => `%TD${name()}*%\n`, () => "%TD*%\n", () => `G04 #@! TO${name()},c*\n`, () => ""][below(7)]();
  };
  const lines = (count, make) => Array.from({ length: count }, make).join("");
  const object = () => said() + said() + [() => `X${below(99)}Y${below(99)}D03*\n`, () => `X${below(99)}Y0D02*\nX${below(99)}Y5D01*\n`,
    () => `G36*\nX0Y${below(9)}D02*\n${said()}X${1 + below(9)}D01*\n${said()}Y${below(99)}D01*\nX50Y50D02*\n${said()}X60D01*\nG37*\n`,
    () => `G02X${below(9)}Y5I5J5D01*\nG01*\n`, () => `D1${below(2)}*\nX0Y0D03*\n`][below(5)]();
  const repeat = () => `%SRX2Y${1 + below(2)}I1J1*%\n${lines(below(3), object)}%SR*%\n`;
  const block = (number) => `${said()}%ABD${number}*%\n${lines(below(4), object)}%AB*%\n${said()}D${number}*\nX0Y0D03*\nD10*\n`;
  return latin1Bytes(`%FSLAX46Y46*%\n%MOMM*%\n${said()}%ADD10C,1*%\n${said()}${said()}%ADD11C,2*%\n${said()}%AMX*1,1,1,0,0*%\n%ADD12X*%\n`
    + `G75*\nD10*\n${lines(5, object)}${block(20)}${repeat()}${lines(3, object)}${block(21)}${repeat()}M02*\n`);
}

suite("edits", () => {
  test("of a board carry what its file says into the text", async () => {
    const bytes = readFileSync(join(EXAMPLES, "kicad", "nightlight-F_Cu.gbr")), reading = readAttributes(bytes);
    const lines = ["load top gerber board", "begin", "delete top 4", "reorder top 0 9", "insert top 2 flash 10 0 0 r0 dark", "end",
      "delete top 0", "undo", "move top 5 1000 1000"];
    const { folder, replies } = ran([...lines, "write top text"], { board: bytes });
    assert.ok(replies.every((reply) => reply.startsWith("ok")), replies.join());
    let state = begun(100);
    for (const line of lines) state = carried(state, line, reading.items);
    const canonical = readFileSync(join(folder, "text")), { apertures, blocks } = reading;
    const load = (made) => canonicalTexts([made])[0];
    const text = await checkedWithAttributes(canonical, saidOf(state, "top"), apertures, blocks, load);
    const pins = (of) => of.items.map(({ attributes }) => attributes.map((attribute) => attribute.text).join());
    const now = pins(readAttributes(text)), then = pins(reading);
    assert.equal(now.length, 32);
    assert.equal(now[2], "");
    assert.deepEqual(now.filter((each) => each === then[4]).length, then.filter((each) => each === then[4]).length - 1);
    assert.equal(now[10], then[0]);
  });
});

suite("what is lost", () => {
  test("of a Gerber file", () => {
    const lost = dropped(readFileSync(join(EXAMPLES, "kicad", "nightlight-F_Cu.gbr")));
    assert.deepEqual(lost.map(({ kind, name }) => kind + name), ["TO.N", "TO.P", "TA.AperFunction", "comment"]);
    assert.deepEqual(lost.map(droppedWords), ["32 net names (.N)", "13 pins (.P)", "9 functions of apertures (.AperFunction)", "6 comments"]);
  });

  test("in blocks, repeats, comments and names", () => {
    const lost = dropped(latin1Bytes(`${HEAD}%INx*%\n%TO.C,R1*%\n%ABD12*%\nX0Y0D03*\n%AB*%\n%SRX2Y1*%\nX0Y0D03*\n%SR*%\n%TD*%\n%TAown,1*%\n`
      + "G36*\nX0Y0D02*\nX1D01*\nG37*\nG04 #@! TF.Part,Single*\nG04 made by hand*\n%LNy*%\nM02*\n"));
    assert.deepEqual(lost.map(droppedWords), ["2 component names (.C)", "1 attributes of apertures (own)", "1 file attributes in comments",
      "1 comments", "2 names of the image or of a layer"]);
  });

  test("of a drill file", () => {
    const lost = dropped(latin1Bytes("M48\n; DRILL file {KiCad 8.0.4}\n; #@! TF.CreationDate,2024-09-02\n; #@! TF.FileFunction,Plated\nMETRIC\n"
      + "; #@! TA.AperFunction,Plated,PTH,ViaDrill\nT1C0.300\n; #@! TA.AperFunction,Plated,PTH,ComponentDrill\nT2C0.8\n%\nG05\nT1\n"
      + "X1.0Y1.0 ; #@! TO.N,GND\nM30\n; behind the end\n"));
    assert.deepEqual(lost.map(droppedWords), ["1 comments", "2 file attributes in comments", "2 functions of apertures (.AperFunction)",
      "1 net names (.N)"]);
    assert.deepEqual(dropped(latin1Bytes("M48\nMETRIC\nT1C0.3\n%\nG05\nM30\n")), []);
  });
});

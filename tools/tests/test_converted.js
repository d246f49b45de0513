// What tools/to_gerber writes always loads: files made at random, of forms that camplot reads and of others.

import assert from "node:assert/strict";
import { existsSync, writeFileSync } from "node:fs";
import { join } from "node:path";
import { skip, suite, test } from "./harness.js";
import { PROGRAM, newRoom, runProgram } from "./support.js";
import { convertGerber } from "../../web/convert/gerber/convert.js";
import { Failure } from "../../web/convert/report.js";

const LAYERS = 32;
const ROUNDS = Number(process.env.ROUNDS ?? 8);

/** Numbers at random, the same from each seed. */
function dice(seed) {
  let state = seed;
  const next = () => {
    state = (state + 0x6d2b79f5) | 0;
    let mixed = Math.imul(state ^ (state >>> 15), 1 | state);
    mixed = (mixed + Math.imul(mixed ^ (mixed >>> 7), 61 | mixed)) ^ mixed;
    return ((mixed ^ (mixed >>> 14)) >>> 0) / 2 ** 32;
  };
  const below = (count) => Math.floor(next() * count);
  return { next, below, pick: (...list) => list[below(list.length)] };
}

const many = (count, make) => Array.from({ length: count }, make);

class Files {
  constructor(seed) {
    const { next, below, pick } = dice(seed);
    this.next = next;
    this.below = below;
    this.pick = pick;
    this.digits = 1;
  }

  odd() {
    return this.pick("0.1", "0.05", ".02", "0", "1", "0.3", "-0.1", "9", "0.0000001", "2", "0.25", "12.", "+.2", "1mm", "");
  }

  length() {
    return this.pick("0.1", "0.05", ".02", "0.3", "0.25", "0.08");
  }

  angle() {
    return this.pick("0", "90", "45", "-90", "30.5", "360", "180", "22.5");
  }

  place() {
    return this.pick("0", "0.1", "-0.05", "0.02", "$1", "$1/2", "-$2x2", "8.1");
  }

  places(count) {
    return many(count, () => this.place()).join(",");
  }

  primitive() {
    const { pick } = this;
    switch (this.below(8)) {
      case 0: return `1,${pick(1, 1, 0, 2)},${pick(this.odd(), this.length(), "$1")},${this.places(2)}${pick("", `,${this.angle()}`)}`;
      case 1: return `${pick(20, 2)},${pick(1, 0)},${pick(this.length(), this.odd())},${this.places(4)},${this.angle()}`;
      case 2: return `21,1,${this.length()},${pick(this.length(), this.odd())},${this.places(2)},${this.angle()}`;
      case 3: return `22,1,${this.length()},${this.length()},${this.places(2)},${this.angle()}`;
      case 4: return `4,1,${pick(3, 3, 2, 4)},0,0,.1,0,.1,.1,0,0${pick("", `,${this.angle()}`)}`;
      case 5: return `5,1,${pick(6, 8, 2)},${this.places(2)},${this.length()},${this.angle()}`;
      case 6: return `7,0,0,${pick("0.2", this.odd())},0.1,0.02,${this.angle()}`;
      default: return pick("$3=$1x2", "0 comment", "RECT", "1,1,1/$9,0,0", "01,1,.1,0,0", "6,0,0,.3,.02,.02,3,.01,.4,0");
    }
  }

  aperture(number) {
    const name = this.pick("C", "C", "R", "O", "P", "M0", "M1", "M2", "c");
    const usual = name === "P" ? [this.length(), this.pick("6", "8")]
      : many(["C", "c"].includes(name) ? 1 : 2, () => this.length());
    const sizes = this.next() < 0.7 ? usual : many(this.below(4), () => this.odd());
    return `%ADD${this.pick("", "0")}${number}${name}${sizes.length ? `,${sizes.join("X")}` : ""}*%`;
  }

  coordinate() {
    const value = this.below(3000) - 1500;
    return (value < 0 ? "-" : "") + String(Math.abs(value)).padStart(this.digits, "0");
  }

  point(letters = "XY") {
    return [...letters].map((letter) => letter + this.coordinate()).join("");
  }

  command() {
    const { pick } = this;
    switch (this.below(12)) {
      case 0: return `%LR${this.angle()}*%`;
      case 1: return `%LM${pick("N", "X", "Y", "XY")}*%`;
      case 2: return pick(`%LS${pick("1", "2", "0.5")}*%`, "%LPD*%", "%LPC*%");
      case 3: return `D${10 + this.below(5)}*`;
      case 4: return `${this.point()}D03*`;
      case 5: return `${this.point()}D02*`;
      case 6: return `G0${pick(2, 3)}${this.point("XYIJ")}D01*`;
      case 7: return `${this.point("X")}*`;
      case 8: return "G36*\nX0Y0D02*\nX100D01*\nY100D01*\nG37*";
      case 9: return pick("G75*", "G74*", "G54D10*", "G01*");
      default: return `${pick("", "G01")}${this.point()}D01*`;
    }
  }

  /** A file and the options under which it is converted. */
  file() {
    const { pick } = this;
    const [format, digits] = pick(["%FSLAX24Y24*%", 1], ["%FSLAX23Y24*%", 1], ["%FSTAX24Y24*%", 6], ["", 1]);
    const unit = pick("%MOIN*%", "%MOMM*%", "");
    this.digits = digits;
    const text = [format, unit, ...many(3, (_, at) => `%AMM${at}*${many(1 + this.below(2), () => this.primitive()).join("*")}*%`),
      ...many(5, (_, at) => this.aperture(10 + at)), "D10*", ...many(this.below(14), () => this.command()), "M02*", ""].join("\n");
    /** @type {import("../../web/convert/gerber/convert.js").Options} */
    const options = { nearest: this.next() < 0.8, repeat: this.next() < 0.7, arcs: pick(undefined, "single", "multi"),
      unit: unit ? undefined : "inch", format: format ? undefined : { whole: 2, decimals: 4 } };
    return { text, options };
  }

  /** Files that are converted: what they were, and what they became. */
  converted(count) {
    const found = [];
    while (found.length < count) {
      const { text, options } = this.file();
      try {
        const { bytes } = convertGerber(Buffer.from(text), options);
        if (bytes) found.push({ text, bytes });
      } catch (fault) {
        if (!(fault instanceof Failure)) throw new Error(`${fault.message}\n${text}`);
      }
    }
    return found;
  }
}

suite("files at random", () => {
  test("that are converted load", () => {
    if (!existsSync(PROGRAM)) skip("the program is not built");
    const files = new Files(7), room = newRoom();
    for (let round = 0; round < ROUNDS; round++) {
      const some = files.converted(LAYERS);
      some.forEach(({ bytes }, at) => writeFileSync(join(room, `f${at}`), bytes));
      writeFileSync(join(room, "script"), some.map((_, at) => `load l${at} gerber f${at}\n`).join(""));
      const replies = runProgram(PROGRAM, ["script"], room).stdout.trim().split("\n");
      replies.forEach((reply, at) => assert.match(reply, /^ok \d+$/, `${some[at].text}\nbecame\n${Buffer.from(some[at].bytes)}`));
      assert.equal(replies.length, LAYERS);
    }
  });
});

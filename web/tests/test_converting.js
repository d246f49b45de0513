// Refused files on the page: what they are converted to, and what a person has to choose.

import assert from "node:assert/strict";
import { readFileSync } from "node:fs";
import { join } from "node:path";
import { suite, test } from "../../tools/tests/harness.js";
import { REPOSITORY } from "./support.js";
import { convertedOf, waysOf } from "../worker/converting.js";

const CASES = join(REPOSITORY, "tools", "cases", "to_gerber");
const file = (name) => readFileSync(join(CASES, name, "file.gbr"));
const written = (name) => readFileSync(join(CASES, name, "new.gbr"), "latin1");
const text = (bytes) => Buffer.from(bytes).toString("latin1");

suite("ways to convert", () => {
  test("arcs with neither G74 nor G75 are of one quadrant, or of any angle", () => {
    const bytes = file("arcs_of_one_quadrant");
    assert.deepEqual(convertedOf("gerber", bytes).asks.map(({ name }) => name), ["arcs"]);
    const ways = waysOf("gerber", bytes);
    assert.deepEqual(ways.map(({ choices, words }) => [choices, words]),
      [[{ arcs: "single" }, ["arcs: of one quadrant, without signs"]], [{ arcs: "multi" }, ["arcs: of any angle, with signs"]]]);
    assert.equal(text(ways[0].converted.bytes), written("arcs_of_one_quadrant"));
    assert.deepEqual(waysOf("gerber", file("arcs_of_any_angle")).map(({ choices }) => choices), [{ arcs: "multi" }]);
  });

  test("points alone repeat flashes and moves", () => {
    const [way, ...others] = waysOf("gerber", file("repeated_flashes"));
    assert.deepEqual([way.choices, others], [{ repeat: true }, []]);
    assert.equal(text(way.converted.bytes), written("repeated_flashes"));
  });

  test("what one choice uncovers is asked for too", () => {
    const bytes = Buffer.from("%FSLAX24Y24*%\n%ADD10P,0.05X6*%\n%ADD11C,0.05*%\nD10*\nX0Y0D03*\nX10*\nD11*\nG02X20Y10I10J0D01*\nM02*\n");
    assert.deepEqual(waysOf("gerber", bytes).map(({ choices }) => choices), ["mm", "inch"].flatMap((unit) =>
      ["single", "multi"].map((arcs) => ({ nearest: true, unit, arcs, repeat: true }))));
  });

  test("a format is typed", () => {
    const bytes = file("no_format");
    assert.deepEqual(waysOf("gerber", bytes), []);
    const { refusals, asks } = convertedOf("gerber", bytes);
    assert.deepEqual(asks.map(({ name }) => name), ["format", "zeros"]);
    assert.match(refusals[0], /a coordinate before the format/);
    assert.ok(!refusals[0].includes("--"));
    assert.equal(text(convertedOf("gerber", bytes, { format: "2.4" }).bytes), written("no_format"));
    assert.equal(text(convertedOf("gerber", file("late_format"), { format: "3:3", zeros: "leading" }).bytes), written("late_format"));
    assert.deepEqual(convertedOf("gerber", bytes, { format: "x" }).refusals, ["the format: two digits are wanted, as 2.4"]);
  });

  test("a refusal quotes what the file has there, also where each object of JavaScript has that name", () => {
    for (const name of ["constructor", "toString", "hasOwnProperty", "unit"]) {
      const drill = Buffer.from(`M48\nMETRIC\n--${name}\nT1C0.8\n%\nT1\nX1.0Y1.0\nM30\n`), gerber = Buffer.from(`%FSLAX24Y24*%\n%MOMM*%\n--${name}*\nM02*\n`);
      const quoted = name === "unit" ? "the unit" : `--${name}`;
      assert.ok(convertedOf("drill", drill).refusals[0].startsWith(`line 3: ${quoted} is no line that is known`), name);
      assert.ok(convertedOf("gerber", gerber).refusals[0].startsWith(`line 3: ${quoted}* is no command that is known`), name);
    }
    const { refusals } = convertedOf("drill", Buffer.from("M48\nMETRIC\nT1\n%\nT1\nX1Y1\nM30\n"), { tools: "--constructor" });
    assert.deepEqual(refusals, ["tool --constructor: a number and a diameter are wanted, as 1=0.8mm"]);
  });

  test("a file that is read as it stands has none", () => {
    assert.equal(convertedOf("gerber", Buffer.from(written("no_format"))), null);
  });
});

// What a person may say of a file: the same by commands, by refusals and by a page.

import assert from "node:assert/strict";
import { readFileSync } from "node:fs";
import { join } from "node:path";
import { suite, test } from "./harness.js";
import { ADVICE, CASES, runTool } from "./support.js";
import { latin1Bytes } from "../../web/bytes/text.js";
import { CHOICES, askedChoices, choiceWords, waysToConvert } from "../../web/convert/choices.js";
import { convertDrill } from "../../web/convert/drill/convert.js";
import { convertGerber } from "../../web/convert/gerber/convert.js";
import { Failure, refusalText } from "../../web/convert/report.js";

function refusalsOf(kind, text) {
  const bytes = latin1Bytes(text);
  try {
    const { refusals } = kind === "drill" ? convertDrill(bytes, { tools: [] }) : convertGerber(bytes);
    return (refusals ?? []).map(refusalText);
  } catch (fault) {
    if (!(fault instanceof Failure)) throw fault;
    return [];
  }
}

const names = (choices) => choices.map(({ name }) => name);

suite("choices", () => {
  for (const [kind, tool] of [["gerber", "to_gerber"], ["drill", "to_xnc"]]) {
    test(`are the options of ${tool}`, () => {
      const { stdout } = runTool(tool, ["--help"]);
      const options = [...stdout.matchAll(/^ {2}(--\w+)/gm)].map(([, option]) => option);
      const others = ["--replace", "--json", "--camplot"];
      assert.deepEqual(options.filter((option) => !others.includes(option)), CHOICES[kind].map(({ option }) => option));
    });

    test(`of ${tool} are all that its refusals name, and each says what to do`, () => {
      const rows = JSON.parse(readFileSync(join(CASES, `${kind}_refusals.json`), "utf8"));
      const refusals = rows.flatMap(({ text }) => refusalsOf(kind, text));
      assert.ok(refusals.length > 20);
      for (const refusal of refusals) assert.match(refusal, ADVICE);
      const named = new Set(refusals.flatMap((refusal) => refusal.match(/--[a-z]+/g) ?? []));
      assert.ok(named.size > 1);
      assert.deepEqual([...named].filter((option) => !CHOICES[kind].some((choice) => choice.option === option)), []);
    });
  }

  test("are found in refusals", () => {
    assert.deepEqual(names(askedChoices("gerber", ["line 3: x: give --arcs single .., else --arcs multi", "y, or give --nearest"])),
      ["nearest", "arcs"]);
    assert.deepEqual(names(askedChoices("drill", ["give --tool 1=0.8mm", "give --zeros leading"])), ["zeros", "tools"]);
    assert.deepEqual(askedChoices("gerber", ["choose RS-274X", "--unknown"]), []);
  });

  test("give the ways to convert a file", () => {
    const [arcs, repeat, format] = ["arcs", "repeat", "format"].map((name) => CHOICES.gerber.find((choice) => choice.name === name));
    const asked = (choices) => {
      if (!choices.arcs) return [arcs];
      if (choices.arcs === "single" && !choices.repeat) return [format, repeat];
      return null;
    };
    assert.deepEqual(waysToConvert(asked), [{ arcs: "multi" }, { arcs: "single", repeat: true }]);
    assert.deepEqual(waysToConvert(() => null), [{}]);
    assert.deepEqual(waysToConvert(() => [arcs, repeat]), []);
    assert.deepEqual(waysToConvert(() => [format]), []);
  });

  test("in words", () => {
    assert.deepEqual(choiceWords("gerber", { repeat: true, arcs: "multi" }),
      ["arcs: of any angle, with signs", "a point alone repeats flashes and moves"]);
    assert.deepEqual(choiceWords("gerber", { format: "2.4" }), ["digits before and after the point: 2.4"]);
  });
});

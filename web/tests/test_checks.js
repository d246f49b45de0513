// The pure parts of the check of nets and rules: how findings are sorted, accepted and kept, and what files of rules say.

import assert from "node:assert/strict";
import { readFileSync } from "node:fs";
import { join } from "node:path";
import { RULE_FILES } from "../page/rule_files.js";
import { REPOSITORY } from "./support.js";
import { acceptedText, isAcceptedFile, isSame, readAccepted, readRules } from "../nets/index.js";
import { areAlike, isRulesFile, rulesOf, withLimit } from "../page/checks_rules.js";
import { joinedAccepted, keptWords, sorted, whoWords, withAccepted, withoutAccepted } from "../page/checks_list.js";
import { suite, test } from "../../tools/tests/harness.js";

const bytes = (text) => new TextEncoder().encode(text);
const kept = (kind, x, nets = ["GND"], layer = "top") => ({ kind, nets, layer, x, y: 2 });
const finding = (kind, x, value, nets) => ({ kind, value, measure: null, place: { layer: 0, x: x * 1e6, y: 2e6 }, lines: [`${kind}: ${value}`], short: "GND", shown: [],
  kept: kept(kind, x, nets) });
const found = (findings, more = {}) => ({ findings, loose: [], unchecked: [], again: [], limits: [["ring", 130000], ["gap", 150000]], labels: ["top"], pitch: 10000, points: 4,
  count: 2, misfit: null, ms: 10, ...more });

suite("a check's findings", () => {
  test("stand by kind, those of nets first, as they come", () => {
    const { groups, summary } = sorted(found([finding("short", 1, 300), finding("ring", 2, 20), finding("ring", 3, 40), finding("gap", 4, 90)]), []);
    assert.deepEqual(groups.map(({ kind, findings }) => [kind, findings.length]), [["short", 1], ["ring", 2], ["gap", 1]]);
    assert.deepEqual(groups.map(({ title }) => title), ["Shorts", "Annular ring, less than 0.130 mm", "Copper to copper, less than 0.150 mm"]);
    assert.equal(summary, "0 opens, 1 short, 0 points without copper, 0 pieces of copper without a point; 2 rules of 2 broken at 3 places, 0 kept");
  });

  test("a sum says of rules alone where there is nothing to compare with, and counts none as kept that was not checked", () => {
    const unchecked = [{ rule: "gap", side: null, why: "" }];
    assert.equal(sorted(found([finding("ring", 1, 20)], { points: 0, unchecked }), []).summary, "1 rule of 2 broken at 1 place, 0 kept");
    assert.equal(sorted(found([], { points: 0, limits: [] }), []).summary, "");
  });

  test("those that are accepted stand apart, and those of a rule that was not checked are not gone", () => {
    const accepted = [{ ...kept("ring", 2.05), reason: "as drawn", by: "Ada" }, { ...kept("ring", 9), reason: "old" }, { ...kept("width", 9), reason: "not asked" }];
    const result = sorted(found([finding("ring", 2, 20), finding("ring", 3, 40)]), accepted);
    assert.deepEqual(result.accepted.map(({ finding: { kept: its }, by }) => [its.x, whoWords(by)]), [[2, "as drawn (Ada)"]]);
    assert.deepEqual(result.gone.map(({ kind, x }) => [kind, x]), [["ring", 9]]);
    assert.deepEqual(result.groups.map(({ findings }) => findings.length), [1]);
    assert.match(result.summary, /1 rule of 2 broken at 1 place, 1 kept$/);
  });

  test("one is accepted with a reason and a name, and taken back", () => {
    const one = kept("ring", 2);
    assert.match(withAccepted([], one, " ", "Ada").why, /reason/);
    assert.match(withAccepted([], one, "as drawn", "").why, /name/);
    const { accepted, why } = withAccepted([], one, " as\n drawn ", "Ada ");
    assert.deepEqual([accepted, why], [[{ ...one, reason: "as drawn", by: "Ada" }], null]);
    // Once more: the last one counts.
    assert.deepEqual(withAccepted(accepted, one, "again", "Bob").accepted, [{ ...one, reason: "again", by: "Bob" }]);
    assert.deepEqual(withoutAccepted(accepted, one), []);
    assert.equal(keptWords(one), "annular ring: GND on top");
  });

  test("the file of them is that of tools/nets, with who it was, and a file without that is read too", () => {
    const accepted = [{ ...kept("ring", 2.123456), reason: "as drawn", by: "Ada Ω" }, { ...kept("short", 3, ["A", "B"]), reason: "a tie" }], text = acceptedText(accepted);
    assert.deepEqual(readAccepted(text), { findings: [{ ...accepted[0], x: 2.1235 }, accepted[1]], refusals: [] });
    assert.ok(isAcceptedFile(bytes(`# kept\n\n${text}`)) && !isAcceptedFile(bytes("ring 0.1\n")) && !isAcceptedFile(bytes("{\"kind\":\"ring\"}\n")));
    assert.equal(readAccepted('{"kind":"short","nets":[],"layer":"top","x":1,"y":2,"reason":"a","by":7}').refusals.length, 1);
    assert.deepEqual(joinedAccepted(accepted, [{ ...kept("ring", 2.1), reason: "of the file", by: "Bob" }]).map(({ reason }) => reason), ["a tie", "of the file"]);
  });

  test("copper without a name is the same at another pitch", () => {
    const one = kept("ring", 2, ["plated 3", "copper at (2.005, 2.005)"]), other = kept("ring", 2.02, ["copper at (2.013, 2.013)", "plated 3"]);
    assert.ok(isSame(one, other) && !isSame(one, kept("ring", 2, ["plated 4", "copper at (2.005, 2.005)"])));
  });
});

suite("files of rules", () => {
  test("the choices are the files in docs", () => {
    const files = ["rules", "rules_6mil", "rules_5mil", "rules_4mil"];
    assert.equal(RULE_FILES.length, files.length);
    files.forEach((name, at) => {
      const { limits, refusals } = readRules(readFileSync(join(REPOSITORY, "docs", name), "latin1"));
      assert.deepEqual(refusals, []);
      assert.equal(limits.size, 14);
      assert.ok(areAlike([...limits], [...readRules(RULE_FILES[at][1]).limits]), name);
    });
  });

  test("are known by their first line, and refused with the line", () => {
    assert.ok(isRulesFile(bytes("# a house\n\n  ring 0.1 # mm\n")) && isRulesFile(bytes("gap=6mil")));
    assert.ok(!isRulesFile(bytes("G04 ring*\n")) && !isRulesFile(bytes("")) && !isRulesFile(bytes("rings 1\n")));
    assert.deepEqual(rulesOf("house", bytes("ring 0.1\ngap 6mil\n")), { name: "house", limits: [["ring", 100000], ["gap", 152400]], why: null });
    assert.match(rulesOf("house", bytes("ring 0.1\nrind 1\n")).why, /^house is refused: line 2: rind is none of ring, gap/);
  });

  test("a limit is typed in mm or with its unit, and an empty one is none", () => {
    const { limits } = withLimit([["gap", 150000]], "ring", "5mil");
    assert.deepEqual(limits, [["ring", 127000], ["gap", 150000]]);
    assert.deepEqual(withLimit(limits, "gap", " ").limits, [["ring", 127000]]);
    assert.match(withLimit(limits, "gap", "wide").why, /gap needs a length/);
    assert.deepEqual(withLimit(limits, "gap", "wide").limits, limits);
    assert.ok(areAlike(limits, [...limits].reverse()) && !areAlike(limits, [["ring", 127000]]));
  });
});

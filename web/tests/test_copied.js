// What was copied goes into a layer by what its aperture is there; its number is kept in the very layer that it is of.

import assert from "node:assert/strict";
import { copiedOf, fromElsewhere, wordsInto } from "../machine/copied.js";
import { entriesFrom } from "../board/index.js";
import { firstState } from "../machine/index.js";
import { suite, test } from "../../tools/tests/harness.js";

const TEN = entriesFrom(["aperture 10", "%ADD10C,1.000000*%"]), OTHER = entriesFrom(["aperture 10", "%ADD10R,2.000000X1.000000*%", "aperture 20",
  "%ADD20C,1.000000*%"]);

const state = (file, entries) => ({ ...firstState(), active: "top", layers: [{ name: "top", label: "top", kind: "gerber", items: 1 }],
  entries: { top: entries }, told: [{ line: `load top gerber files/${file}`, reply: "ok 1", path: `files/${file}`, file }],
  picked: [{ id: 1, name: "top", place: 0, words: "flash 10 0 0 r0 dark", box: null }] });

suite("what was copied", () => {
  const copied = copiedOf(state("given 1", TEN)), words = (into, given = copied) => wordsInto(into, given);

  test("keeps its number in its own layer, whatever that is by now", () => {
    assert.deepEqual(words(state("given 1", OTHER)), { words: ["flash 10 0 0 r0 dark"] });
  });

  test("takes the aperture of another file under the same name, and of another board", () => {
    assert.deepEqual(words(state("given 2", OTHER)), { words: ["flash 20 0 0 r0 dark"] });
    assert.deepEqual(words(state("given 1", OTHER), fromElsewhere(copied)), { words: ["flash 20 0 0 r0 dark"] });
  });

  test("goes nowhere where that lacks", () => {
    assert.match(words(state("given 2", OTHER.slice(0, 1))).why, /no aperture like that of what was copied: circle 1 mm/);
  });
});

// What the worker tells of a board in words, next to a station that answers as one does.

import assert from "node:assert/strict";
import { suite, test } from "../../tools/tests/harness.js";
import { Telling } from "../worker/telling.js";

const FILE = new TextEncoder().encode("%FSLAX46Y46*%\n%MOMM*%\n%ADD10C,1*%\nD10*\nX0Y0D03*\nM02*\n");
const ANSWERS = new Map([["layers", "top gerber 1 0"], ["items top 0 10000", "flash 10 0 0 r0 dark"], ["item top 0", "flash 10 0 0 r0 dark"],
  ["entries top", "aperture 10 circle 1 mm"], ["attributes top", ""], ["box top 0", "-500000 -500000 500000 500000"]]);
const LAYERS = [{ name: "top", label: "top copper", shows: "top", kind: "gerber", fileName: "top.gbr" }];

function tellingOf() {
  const station = { file: new Uint8Array(), ask(question) {
    const answer = ANSWERS.get(new TextDecoder().decode(question));
    this.file = new TextEncoder().encode(`${answer ?? ""}\n`);
    return answer === undefined ? 40 : 0;
  } };
  const telling = new Telling(station, 10);
  telling.heard("load top gerber top.gbr", FILE, 1);
  return telling;
}

suite("what is told of a board", () => {
  test("has mm where a browser has kept a unit that is none", () => {
    for (const unit of ["furlong", "constructor", ""]) {
      for (const ask of [(telling, asked) => telling.words({ name: "top", place: 0, ...asked }), (telling, asked) => telling.about({ job: null, fileNames: [], ...asked }),
        (telling, asked) => telling.find({ query: "D10", most: 5, ...asked })]) {
        assert.deepEqual(ask(tellingOf(), { layers: LAYERS, unit }), ask(tellingOf(), { layers: LAYERS, unit: "mm" }), unit);
      }
    }
    assert.match(tellingOf().words({ name: "top", place: 0, layers: LAYERS, unit: "furlong" }).head, / mm$/);
  });
});

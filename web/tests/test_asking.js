// Questions of the page to the station, and what is read of the answers.

import assert from "node:assert/strict";
import { asked, headOf, itemsOf } from "../station/asking.js";
import { padsOf, saidItems } from "../nets/said.js";
import { suite, test } from "../../tools/tests/harness.js";

const bytes = (text) => new TextEncoder().encode(text);
const text = (given) => new TextDecoder().decode(given);

// A station with answers by their questions, a number where it is refused.
class Answering {
  constructor(answers) {
    Object.assign(this, { answers, file: bytes("") });
  }

  ask(question) {
    const answer = this.answers[text(question)] ?? 80;
    this.file = bytes(typeof answer === "number" ? "left of before" : answer);
    return typeof answer === "number" ? answer : 0;
  }
}

suite("a station that answers", () => {
  test("is asked in its words", () => {
    const station = new Answering({ "at top 5 -7": "3\n", "at top 5 -7 3": "", "item nowhere 0": 60, "box top 9": 61 });
    assert.deepEqual(["at top 5 -7", "at top 5 -7 3", "item nowhere 0", "box top 9", "what"].map((it) => asked(station, it)),
      [{ code: 0, answer: "3\n" }, { code: 0, answer: "" }, { code: 60, answer: "" }, { code: 61, answer: "" },
        { code: 80, answer: "" }]);
  });
});

suite("items", () => {
  test("are asked in parts, without the objects of repeats", () => {
    const hits = Array.from({ length: 9_999 }, (_, at) => `hit 1 ${at} 0`), repeat = "repeat 2 1 5 0 1";
    const station = new Answering({ "items top 0 10000": [...hits, repeat, "  flash 10 0 0 r0 dark", ""].join("\n"),
      "items top 10000 10000": "hit 2 7 8\n" });
    assert.deepEqual([...itemsOf(station, "top")], [...hits, repeat, "hit 2 7 8"]);
    assert.deepEqual([...itemsOf(station, "nowhere")], []);
  });

  test("begin with a kind and a number", () => {
    assert.deepEqual(["hit 12 7 8", "region dark 0 0 l 1 1", "repeat 2 1 5 0 1"].map(headOf),
      [{ kind: "hit", number: 12 }, { kind: "region", number: null }, { kind: "repeat", number: null }]);
  });

  test("reach as far as their pads and pens, and pads have centres", () => {
    const items = ["draw 10 0 0 9 9 r0 dark", "flash 11 1 2 r90 dark", "flash 12 3 4 r0 dark", "region dark 0 0 l 1 1 l 0 0", "hit 1 5 6"];
    const station = new Answering({ "items top 0 10000": `${items.join("\n")}\n`, "box top 2": "-7.5 0 12.5 30\n",
      "entries top": "aperture 10\n%ADD10C,0.000005*%\naperture 11\n%ADD11R,0.000040X0.000020X0.000004*%\naperture 12\n"
        + "%AMM12*\n1,1,0.000020,0.000000,0.000000*\n%\n%ADD12M12*%\ntool 1\nT1C0.000008\n" });
    const said = saidItems(station, "top");
    assert.deepEqual(said.items.map(({ words, reach }) => ({ words, reach })), items.map((words, at) => ({ words, reach: [3, 10, 11, 0, 4][at] })));
    assert.deepEqual(padsOf(said), [{ x: 1, y: 2 }, { x: 3, y: 4 }, { x: 0.5, y: 0.5 }, { x: 5, y: 6 }]);
  });
});

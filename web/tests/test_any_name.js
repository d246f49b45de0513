// A layer, a path or a word of a file may be called as what every object has, `constructor` or `__proto__`.

import assert from "node:assert/strict";
import { suite, test } from "../../tools/tests/harness.js";
import { firstState, platingOf, step } from "../machine/index.js";

// The machine with what it sent last, line by line: `told` says what the station answers.
class Machine {
  constructor() {
    this.state = firstState();
    this.tell({ kind: "started" });
  }

  tell(event) {
    const { state, lines, messages } = step(this.state, event);
    Object.assign(this, { state, lines, messages });
    return this;
  }

  gesture(gesture) {
    return this.tell({ kind: "gesture", gesture });
  }

  answer(answer) {
    return this.tell({ kind: "answer", number: this.state.work.number, answer });
  }

  line(line, reply) {
    return this.gesture({ kind: "lines", lines: [line], isAllowed: true }).answer({ answers: [{ code: 0, reply }], isStopped: false });
  }

  get asked() {
    return this.messages.find(({ to }) => to === "worker");
  }

  looked(name, more = {}) {
    return this.answer({ layers: [`${name} gerber 3 1`], items: [], entries: {}, attributes: null, list: null, ...more });
  }
}

for (const name of ["constructor", "__proto__", "toString"]) {
  suite(`a layer called ${name}`, () => {
    const loaded = () => new Machine().line(`load ${name} gerber a.gtl`, "ok 3");

    test("has its apertures and attributes asked for, and once", () => {
      const machine = loaded(), { asked } = machine;
      assert.deepEqual([asked.kind, asked.entries, asked.attributes], ["look", [name], name]);
      machine.looked(name, { entries: Object.fromEntries([[name, ["aperture 10", "%ADD10C,0.1*%"]]]), attributes: { name, lines: ["TF .A"] } });
      assert.deepEqual([machine.state.active, machine.state.entry, machine.state.attributes[name]], [name, 10, ["TF .A"]]);
      machine.gesture({ kind: "choose", name });
      assert.deepEqual([machine.asked.entries, machine.asked.attributes], [[], null]);
    });

    test("counts as saved, and then as changed", () => {
      const machine = loaded().looked(name).line(`delete ${name} 0`, "ok").looked(name);
      assert.equal(machine.state.unsaved, 1);
      machine.gesture({ kind: "save" }).answer({ answers: [{ code: 0, reply: "ok 1", bytes: new Uint8Array(1) }], isStopped: false }).answer({ why: null });
      assert.equal(machine.state.unsaved, 0);
      machine.line("undo", "ok").looked(name);
      assert.equal(machine.state.unsaved, 1);
    });
  });

  test(`a path called ${name}: a load of it has no file`, () => {
    const machine = new Machine().line(`load top gerber ${name}`, "ok 3");
    machine.looked("top");
    assert.deepEqual(machine.state.told, [{ line: `load top gerber ${name}`, reply: "ok 3" }]);
  });
}

test("a drill file that calls its holes constructor: whether they are plated is not known", () => {
  const bytes = new TextEncoder().encode("M48\n; #@! TF.FileFunction,toString,1,2\n; #@! TA.AperFunction,constructor,PTH\nT1C0.3\n%\n");
  const state = { ...firstState(), files: { a: { name: "a.drl", bytes } }, told: [{ line: "load holes drill a.drl", reply: "ok 1", file: "a" }] };
  assert.equal(platingOf(state, "holes").of(1), "?");
});

test("items that were lit in a table are let go while they are found", () => {
  const machine = new Machine().line("load top gerber a.gtl", "ok 3").looked("top");
  machine.gesture({ kind: "tally", changes: { isApertures: true, lit: { name: "top", number: 10, items: null } } });
  assert.deepEqual(machine.asked.lit, { name: "top", number: 10 });
  machine.tell({ kind: "escape" }).answer({ layers: {}, lit: [] });
  assert.equal(machine.state.tables.lit, null);
});

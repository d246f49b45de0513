// What is said of items, carried through scripts, beside the program.

import assert from "node:assert/strict";
import { readFileSync } from "node:fs";
import { join } from "node:path";
import { part, suite, test } from "../../tools/tests/harness.js";
import { plainItems } from "./plain_items.js";
import { ran } from "./stations.js";
import { latin1Bytes } from "../bytes/text.js";
import { List } from "../attributes/list.js";
import { NotCarried, begun, carried, saidOf } from "../attributes/carry.js";
import { named, readAttributes } from "../attributes/read.js";

const SCRIPTS = Number(process.env.CARRIED ?? 24);
const LINES = 120;

/** Numbers at random, the same from each seed. */
function dice(seed) {
  let state = seed;
  return (count) => {
    state = (state + 0x6d2b79f5) | 0;
    let mixed = Math.imul(state ^ (state >>> 15), 1 | state);
    mixed = (mixed + Math.imul(mixed ^ (mixed >>> 7), 61 | mixed)) ^ mixed;
    return ((mixed ^ (mixed >>> 14)) >>> 0) % count;
  };
}

suite("lists", () => {
  test("are as arrays are, and stay as they were", () => {
    const below = dice(1);
    let values = Array.from({ length: 1500 }, (_, at) => at), list = List.of(values);
    for (let round = 0; round < 3000; round++) {
      const before = list, was = values;
      const [from, to] = [below(values.length), below(values.length)];
      values = values.slice();
      switch (below(3)) {
        case 0:
          values.splice(to, 0, -round);
          list = list.inserted(to, -round);
          break;
        case 1:
          values.splice(from, 1);
          list = list.deleted(from);
          break;
        default:
          values.splice(to, 0, ...values.splice(from, 1));
          list = list.moved(from, to);
      }
      assert.equal(list.length, values.length);
      assert.equal(list.at(from % values.length), values[from % values.length]);
      if (round % 100 === 0) {
        assert.deepEqual(list.toArray(), values);
        assert.deepEqual([...before], was);
      }
    }
  });

  test("at their ends", () => {
    const one = List.of([]).inserted(0, "a").inserted(1, "b").inserted(0, "c");
    assert.deepEqual([...one], ["c", "a", "b"]);
    assert.deepEqual([...one.deleted(0).deleted(1).deleted(0)], []);
    assert.deepEqual([...one.moved(0, 2)], ["a", "b", "c"]);
    for (const wrong of [() => one.at(3), () => one.deleted(3), () => one.inserted(4, ""), () => one.moved(0, 3), () => one.at(-1),
      () => List.of([]).at(0), () => one.at(0.5)]) {
      assert.throws(wrong, RangeError);
    }
  });
});

// A layer of which each item stands at a height of its own, which its attribute names. Edits move items sideways alone.
const heightOf = (at) => 10 * at;
function layerOf(count) {
  const objects = Array.from({ length: count }, (_, at) => {
    const y = heightOf(at), said = `%TO.P,${y}*%\n`;
    switch (at % 4) {
      case 0: return `${said}D10*\nX0Y${y}D03*\n`;
      case 1: return `${said}D10*\nX0Y${y}D02*\nX50Y${y}D01*\n`;
      case 2: return `${said}G36*\nX0Y${y}D02*\nX50Y${y}D01*\nX50Y${y + 1}D01*\nG37*\n`;
      default: return `${said}%SRX2Y1I0.0001J0*%\nD11*\nX0Y${y}D03*\n%SR*%\n`;
    }
  });
  return latin1Bytes(`%FSLAX46Y46*%\n%MOMM*%\n%ADD10C,0.1*%\n%ADD11R,0.1X0.1*%\nG01*\n${objects.join("")}M02*\n`);
}

// The height of an item, by its words.
function itemHeight(item) {
  const words = (item.objects[0] ?? item).words.split(" ");
  return Number(words[3]);
}

// The height that is said of it; null where nothing is.
function saidHeight(said) {
  const attribute = named((said.objects[0] ?? said).attributes, ".P");
  return attribute && Number(attribute.fields[0]);
}

class Scripts {
  constructor(seed) {
    this.below = dice(seed);
    this.names = ["a"];
    this.fresh = 0;
  }

  // A place that is sometimes past the end.
  place() {
    return this.below(22);
  }

  line() {
    const { below } = this, name = this.names[below(this.names.length)], place = this.place();
    switch (below(17)) {
      case 0:
      case 1: return `delete ${name} ${place}`;
      case 2:
      case 3: return `insert ${name} ${place} flash 10 0 ${1e6 + 10 * this.fresh++} r0 dark`;
      case 4:
      case 5: return `reorder ${name} ${place} ${this.place()}`;
      case 6: return `move ${name} ${place} ${below(5)} 0`;
      case 7: return `aperture ${name} ${place} ${10 + below(3)}`;
      case 8: return `polarity ${name} ${place} ${["dark", "clear"][below(2)]}`;
      case 9:
      case 10: return "undo";
      case 11: return "redo";
      case 12: return "begin";
      case 13: return ["end", "end", "abort"][below(3)];
      case 14: return `setattr ${name} .Part Single`;
      case 15: return ["  undo ", `list ${name}`, "# a comment", "", `\tdelete\t${name}  ${place}`, "tool h 0 1", "diameter h 1 500000"][below(7)];
      default: return this.another();
    }
  }

  another() {
    if (this.names.length > 2 || this.below(4)) return "redo";
    this.names.push(["b", "c"][this.names.length - 1]);
    return `load ${this.names[this.names.length - 1]} gerber ${this.below(2) ? "layer" : "empty"}`;
  }
}

const isCommand = (line) => line.trim() !== "" && !line.trim().startsWith("#");

suite("random scripts", () => {
  for (let seed = 1; seed <= SCRIPTS; seed++) {
    test(`seed ${seed}: each item keeps what is said of it`, () => {
      const scripts = new Scripts(seed), depth = [1, 2, 5, 100][seed % 4];
      const lines = ["load a gerber layer", "load h drill holes", ...Array.from({ length: LINES }, () => scripts.line())].filter(isCommand);
      const files = { layer: layerOf(16), empty: layerOf(0), holes: latin1Bytes("M48\nMETRIC\nT1C0.8\n%\nG05\nT1\nX0.0Y0.0\nM30\n") };
      // After each line all texts are written, so that each state is seen.
      const script = lines.flatMap((line, at) => [line, ...scripts.names.map((name) => `write ${name} ${name}${at}`), "list"]);
      const { folder, replies } = ran(script, files, depth);
      let state = begun(depth), accepted = 0;
      const step = scripts.names.length + 2;
      lines.forEach((line, at) => part(`line ${at}: ${line}`, () => {
        const reply = replies[at * step];
        const [verb, , kind, path] = line.trim().split(/\s+/);
        const said = verb === "load" && kind === "gerber" ? readAttributes(files[path]).items : null;
        if (reply.startsWith("ok")) {
          accepted++;
          state = carried(state, line, said);
        }
        const [, layers, past, future] = replies[at * step + step - 1].split(" ").map(Number);
        assert.deepEqual([state.board.size, state.past.length, state.future.length], [layers, past, future]);
        scripts.names.forEach((name, which) => {
          if (!replies[at * step + 1 + which].startsWith("ok")) return;
          const items = plainItems(readFileSync(join(folder, `${name}${at}`)));
          const heights = [...saidOf(state, name)].map(saidHeight);
          assert.deepEqual(heights, items.map(itemHeight).map((height) => height >= 1e6 ? null : height));
        });
      }));
      assert.ok(accepted > LINES / 8, `${accepted} lines`);
    });
  }
});

suite("lines that fit no state", () => {
  const state = carried(begun(3), "load a gerber f", readAttributes(layerOf(2)).items);
  test("are told", () => {
    const open = carried(state, "begin");
    for (const [at, line, why] of [[state, "delete a 2", "no place 2 of 2"], [state, "delete b 0", "there is no layer b"],
      [state, "insert a 3 flash 10 0 0 r0 dark", "no place 3 of 3"], [state, "reorder a 0 2", "no place 2 of 2"],
      [state, "undo", "nothing to undo"], [state, "redo", "nothing to redo"], [state, "end", "a group is not open"],
      [state, "abort", "a group is not open"], [open, "begin", "a group is open"], [open, "undo", "a group is open"],
      [open, "load b gerber f", "a group is open"], [state, "load a gerber f", "the name a is taken"], [state, "delete a x", "no place NaN of 2"]]) {
      part(line, () => assert.throws(() => carried(at, line), (fault) => fault instanceof NotCarried && fault.message === why));
    }
    assert.throws(() => saidOf(state, "b"), NotCarried);
  });

  test("and others change nothing", () => {
    for (const line of ["", "# delete a 0", "list a", "window 0 0 1000 10 10", "redraw 5", "plot a a.pbm", "write a a.gbr",
      "constructor a 0", "toString", "__proto__ b"]) {
      assert.equal(carried(state, line), state);
    }
  });

  test("a drill layer is not followed, and its edits are steps", () => {
    const holes = carried(begun(3), "load h drill f");
    assert.equal(saidOf(holes, "h"), null);
    assert.equal(carried(carried(holes, "delete h 0"), "undo").future.length, 1);
  });
});

suite("how much it is", () => {
  test("a group of 800 deletions among a million items", () => {
    const said = readAttributes(layerOf(4)).items;
    let state = carried(begun(1000), "load a gerber f", Array.from({ length: 1_000_000 }, (_, at) => said[at % 4]));
    const started = process.cpuUsage().user;
    state = carried(state, "begin");
    for (let at = 0; at < 800; at++) state = carried(state, `delete a ${(at * 1237) % 990_000}`);
    state = carried(state, "end");
    assert.equal(saidOf(state, "a").length, 999_200);
    assert.equal(saidOf(carried(state, "undo"), "a").length, 1_000_000);
    assert.ok((process.cpuUsage().user - started) / 1e6 < 1);
  });
});

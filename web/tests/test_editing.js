// Turns, mirrors, arrays, alignment and picks by likeness or by touch, by real keys and clicks: what each makes is what the
// program makes of the page's saved script, and an undo gives back the same text.

import assert from "node:assert/strict";
import { CTRL, SHIFT, clickAt, gerber, give, lines, onPage, picked, program, run, settle, text, written } from "./support.js";
import { answer, middleOf, press } from "./hands.js";
import { middleFor, then, turned } from "../board/turned.js";
import { ran, saving, unzipped } from "./saving.js";
import { suite, test } from "../../tools/tests/harness.js";
import { tabs } from "./tab.js";

const open = tabs();

const idle = (tab) => tab.ask("camplot.idle()");

async function withFile(bytes, name = "a.gtl") {
  const tab = await open();
  await give(tab, [{ name, bytes }]);
  await settle(tab);
  return tab;
}

async function key(tab, name, modifiers = 0) {
  await tab.key(name, modifiers);
  await idle(tab);
}

// Answers the dialogue of an array that is open, by its first button.
async function copy(tab) {
  await answer(tab, /^Copy$/);
  await tab.wait("camplot.state.questions.length === 0");
  await idle(tab);
}

const told = (tab) => text(tab, "told");
const steps = (tab) => tab.ask("camplot.steps.done.length");
const since = async (tab, count) => (await lines(tab)).slice(count).map((line) => line.split(" -> ")[0]);

// What the program makes of the page's script, saved by its key: a function that reads what it wrote, by path.
async function outside(tab) {
  const files = unzipped((await saving(tab, () => tab.key("e", CTRL))).bytes);
  const { status, replies, read } = ran(new Map([...files, ["written/none", ""]]), ["script", "--depth", "1000"]);
  assert.equal(status, 0, replies.join("\n"));
  return read;
}

// The text of a layer now, by the page, and at the end of its script by the program.
async function sameText(tab, name) {
  const now = await written(tab, name);
  const read = await outside(tab);
  assert.equal(read(`written/${name}`).toString("latin1"), now);
  return now;
}

// A gesture that is one step: its lines, and what an undo leaves is what was there before, by the page and by the program.
async function tryGesture(tab, name, gesture) {
  const before = await written(tab, name), [count, from] = [await steps(tab), (await lines(tab)).length];
  await gesture();
  await idle(tab);
  const made = await since(tab, from);
  assert.equal(await steps(tab), count + 1);
  const after = await sameText(tab, name);
  await key(tab, "z", CTRL);
  assert.equal(await sameText(tab, name), before);
  await key(tab, "y", CTRL);
  assert.equal(await written(tab, name), after);
  return { made, before, after };
}

const TURNS = ["r0", "r90", "r180", "r270", "m0", "m90", "m180", "m270"];
const BLOCK = ["%ABD15*%", "D11*", "X301Y1001D03*", "D10*", "X-1500003Y501D03*", "%LPC*%", "X-1500003Y501D02*", "X501Y501D01*", "%LPD*%",
  "%AB*%"];

// Apertures and items without any symmetry, in a box about (0, 0): flashes of each turn, draws, arcs, regions, a block.
const ODD = Buffer.from(["%FSLAX46Y46*%", "%MOMM*%", "%ADD10C,1.000002*%", "%ADD11R,2.000002X1.000006*%",
  "%ADD12O,3.000002X1.400002*%", "%AMODD*1,1,0.8,0.7,0.1*21,1,1.9,0.3,0.2,-0.5,0*4,1,3,0,0,-1.3,0.2,-0.4,0.9,0,0,0*1,0,0.3,0.7,0.1*%",
  "%ADD13ODD*%", "%ADD14R,0.6X0.2*%", ...BLOCK, "G01*", "G75*", "M02*", ""].join("\n"));

const ITEMS = [
  ...[[-9e6, -9e6], [9e6, -9e6], [-9e6, 9e6], [9e6, 9e6]].map(([x, y]) => `flash 10 ${x} ${y} r0 dark`),
  ...TURNS.map((turn, at) => `flash 13 ${-7000001 + at * 2000003} 6000007 ${turn} dark`),
  ...TURNS.map((turn, at) => `flash 15 ${-6000001 + at * 1700003} ${-6500001 + at * 900001} ${turn} ${at % 3 ? "dark" : "clear"}`),
  "flash 12 3000001 -7000003 r90 dark", "draw 11 -8000003 2000001 -5000001 3000003 r0 dark",
  "draw 14 -8000003 -2000001 -6000001 -3000003 r90 dark",
  "draw 11 -7000003 2200001 -5500001 2800003 m270 clear", "arc 10 4000001 3000001 3000001 4000001 3000001 3000001 cw dark",
  "arc 10 -2000001 2000001 -2000001 2000001 -1000001 2000001 ccw dark",
  "region dark 5000001 -3000001 l 8000001 -3000001 ccw 7000001 -2000001 7000001 -3000001 cw 6000001 -1000001 6000001 -2000001 "
    + "l 5000001 -3000001",
  "region clear 6000001 -2700001 l 7000003 -2600001 l 6500005 -2400001 l 6000001 -2700001",
];

// The pixels of a PBM file, row by row.
function pixelsOf(bytes) {
  const [, width, height] = /^P4\n(\d+) (\d+)\n/.exec(bytes.subarray(0, 40).toString("latin1"));
  const stride = Math.ceil(width / 8), data = bytes.subarray(bytes.length - height * stride);
  return Array.from({ length: Number(height) }, (_, y) =>
    Uint8Array.from({ length: Number(width) }, (__, x) => data[y * stride + (x >> 3)] >> (7 - (x & 7)) & 1));
}

// The picture that a turn makes of a square one about its middle: what was at a pixel is where the turn takes it.
const PICTURES = {
  r90: (x, y, last) => [y, last - x], r270: (x, y, last) => [last - y, x], m0: (x, y, last) => [last - x, y],
  m180: (x, y, last) => [x, last - y],
};

function turnedPicture(pixels, turn) {
  const made = pixels.map((row) => new Uint8Array(row.length)), last = pixels.length - 1;
  pixels.forEach((row, y) => row.forEach((value, x) => {
    const [toX, toY] = PICTURES[turn](x, y, last);
    made[toY][toX] = value;
  }));
  return made;
}

const counted = (rows, isSo) => rows.reduce((sum, row, y) => sum + row.filter((value, x) => isSo(value, x, y)).length, 0);
const differing = (one, other) => counted(one, (value, x, y) => value !== other[y][x]);
const blackOf = (pixels) => counted(pixels, (value) => value === 1);

suite("words of a turned item", () => {
  const APPLIED = (turn, [x, y]) => {
    const from = turn[0] === "m" ? [-x, y] : [x, y];
    return Array.from({ length: Number(turn.slice(1)) / 90 }).reduce(([a, b]) => [-b, a], from);
  };

  test("a turn by a turn is one after the other", () => {
    for (const one of TURNS) {
      for (const next of TURNS) {
        assert.deepEqual(APPLIED(then(one, next), [3, 5]), APPLIED(next, APPLIED(one, [3, 5])), `${one} ${next}`);
      }
    }
  });

  test("two mirrors and four quarter turns about the middle of any box change nothing", () => {
    for (let left = -4; left < 5; left += 0.5) {
      for (let low = -4; low < 4; low += 0.5) {
        for (const [wide, high] of [[7, 3], [7.5, 4], [6, 2.5], [3.5, 8.5], [1, 1]]) {
          tryBox({ left, low, right: left + wide, high: low + high });
        }
      }
    }
  });

  function tryBox(box) {
    for (const turn of TURNS) {
      const words = "flash 10 3 -2 r90 dark", times = turn === "r0" ? 1 : /^r(90|270)/.test(turn) ? 4 : 2;
      let now = { words, box };
      for (let count = 0; count < times; count++) now = next(now, turn);
      assert.deepEqual(now, { words, box }, `${turn} ${JSON.stringify(box)}`);
    }
  }

  // The item and its box, turned.
  function next({ words, box }, turn) {
    const middle = middleFor(box, turn), map = (x, y) => APPLIED(turn, [x - middle.x / 2, y - middle.y / 2]).map((value, at) =>
      value + [middle.x, middle.y][at] / 2);
    const [[x0, y0], [x1, y1]] = [map(box.left, box.low), map(box.right, box.high)], made = turned(words, turn, middle);
    const [, , x, y] = made.split(" ").map(Number), [, , fromX, fromY] = words.split(" ").map(Number);
    assert.deepEqual([x, y], map(fromX, fromY).map((value) => value + 0));
    assert.ok(Number.isInteger(x) && Number.isInteger(y));
    assert.ok(Math.hypot(middle.x - box.left - box.right, middle.y - box.low - box.high) <= 1.12);
    return { words: made, box: { left: Math.min(x0, x1), low: Math.min(y0, y1), right: Math.max(x0, x1), high: Math.max(y0, y1) } };
  }
});

suite("turns and mirrors", () => {
  test("the picture of what is turned is the turned picture, pixel by pixel", async () => {
    program();
    const tab = await withFile(ODD);
    for (const [place, words] of ITEMS.entries()) assert.deepEqual(await run(tab, `insert top ${place} ${words}`), ["ok"], words);
    await run(tab, "window -9600000 -9600000 20000 960 960", "plot top 0.pbm");
    const gestures = [["r", 0, "r90"], ["R", SHIFT, "r270"], ["y", 0, "m0"], ["Y", SHIFT, "m180"], ["r", 0, "r90"], ["y", 0, "m0"]];
    await key(tab, "a", CTRL);
    for (const [at, [name, modifiers]] of gestures.entries()) {
      const { made } = await tryGesture(tab, "top", () => tab.key(name, modifiers));
      assert.equal(made.length, 2 * ITEMS.length + 2);
      assert.deepEqual(made.slice(1, 3).map((line) => line.split(" ").slice(0, 3).join(" ")),
        [`delete top ${ITEMS.length - 1}`, `insert top ${ITEMS.length - 1}`]);
      await key(tab, "a", CTRL);
      await run(tab, `plot top ${at + 1}.pbm`);
    }
    const read = await outside(tab), pictures = Array.from({ length: gestures.length + 1 }, (_, at) => pixelsOf(read(`${at}.pbm`)));
    assert.ok(blackOf(pictures[0]) > 50000);
    gestures.forEach(([, , turn], at) => {
      assert.ok(differing(pictures[at], pictures[at + 1]) > 10000, turn);
      assert.equal(differing(turnedPicture(pictures[at], turn), pictures[at + 1]), 0, turn);
    });
  });

  test("holes and slots turn about the middle of their common box", async () => {
    const tab = await withFile(Buffer.from("M48\nMETRIC\nT1C1.000000\n%\nG05\nT1\nX0.000000Y0.000000\nG00X4.000000Y2.000000\nM15\n"
      + "G01X6.000000Y2.000000\nM16\nM30\n"), "a.drl");
    const name = await tab.ask("camplot.state.layers[0].name");
    await key(tab, "a", CTRL);
    // Its box goes from -0.5, -0.5 to 6.5, 2.5 mm.
    await key(tab, "r");
    assert.deepEqual(await picked(tab), [`${name} 0 hit 1 4000000 -2000000`, `${name} 1 rout 1 2000000 2000000 2000000 4000000`]);
    await press(tab, "[data-act=mirror]");
    await idle(tab);
    assert.deepEqual(await picked(tab), [`${name} 0 hit 1 2000000 -2000000`, `${name} 1 rout 1 4000000 2000000 4000000 4000000`]);
    assert.equal(await steps(tab), 2);
    assert.deepEqual((await since(tab, 1)).slice(0, 3),
      ["begin", `delete ${name} 1`, `insert ${name} 1 rout 1 2000000 2000000 2000000 4000000`]);
  });

  test("four quarter turns give the text back", async () => {
    const tab = await withFile(gerber("X0Y0D03*", "D11*", "X4000001Y3D03*"));
    const before = await written(tab, "top");
    await key(tab, "a", CTRL);
    for (let count = 0; count < 4; count++) await key(tab, "r");
    assert.equal(await steps(tab), 4);
    assert.equal(await written(tab, "top"), before);
  });
});

suite("what cannot be turned or copied", () => {
  const refuses = async (tab, words, ...keys) => {
    const before = await written(tab, "top"), count = await steps(tab);
    for (const [name, modifiers] of keys) {
      await key(tab, name, modifiers);
      assert.match(await told(tab), words);
    }
    assert.equal(await written(tab, "top"), before);
    assert.equal(await steps(tab), count);
  };
  const array = async (tab) => {
    await tab.key("k");
    await copy(tab);
  };

  test("a repeat", async () => {
    const tab = await withFile(gerber("X9000000Y9000000D03*", "%SRX3Y2I2.0J3.0*%", "X0Y0D03*", "%SR*%"));
    await key(tab, "a", CTRL);
    await refuses(tab, /A repeat is picked, which no line inserts, so it cannot be turned/, ["r"], ["Y", SHIFT]);
    await array(tab);
    assert.match(await told(tab), /so it cannot be copied/);
    assert.equal(await steps(tab), 0);
    await key(tab, "ArrowLeft", CTRL);
    assert.equal(await steps(tab), 1);
  });

  test("while a group is open, off the board, without a pick, and what no line holds", async () => {
    const tab = await withFile(gerber("X0Y0D03*", "X4000000Y0D03*", "X900000000Y900000000D03*", "X-900000000Y900000000D03*"));
    await refuses(tab, /Nothing is picked/, ["r"], ["ArrowUp", CTRL]);
    await tab.ask("camplot.pick([{ name: 'top', place: 2 }, { name: 'top', place: 3 }])");
    await refuses(tab, /refused 65/, ["r"]);
    await run(tab, "begin");
    await tab.ask("camplot.pick([{ name: 'top', place: 0 }, { name: 'top', place: 1 }])");
    await refuses(tab, /A group is open: end it first/, ["r"], ["y"], ["ArrowLeft", CTRL]);
    await array(tab);
    assert.match(await told(tab), /A group is open/);
    await run(tab, "abort");
    const sides = Array.from({ length: 9000 }, (_, at) => `X${at * 1000}Y${at % 2 * 1000}D01*`);
    await give(tab, [{ name: "long.gbl", bytes: gerber("G36*", "X0Y0D02*", ...sides, "X0Y9000000D01*", "X0Y0D01*", "G37*") }]);
    await tab.ask("camplot.pickPlace('bottom', 0)");
    await refuses(tab, /more points than a line of 65,536 bytes holds/, ["r"]);
  });
});

suite("arrays", () => {
  // Types a value into a field of the dialogue, in place of what it has.
  async function fill(tab, id, value) {
    const [x, y] = await middleOf(tab, `#${id}`);
    await tab.click(x, y);
    await tab.ask(`document.getElementById("${id}").select()`);
    await tab.type(value);
  }

  async function array(tab, columns, rows, dx, dy) {
    await tab.key("k");
    await tab.wait("document.getElementById('question').open");
    for (const [id, value] of Object.entries({ columns, rows, dx, dy })) await fill(tab, `array-${id}`, value);
    await copy(tab);
  }

  test("copies behind the last item, in one step, and all of them are picked", async () => {
    const tab = await withFile(gerber("X0Y0D03*", "D11*", "X0Y3000000D03*", "X90000000Y0D03*"));
    await tab.ask("camplot.pick([{ name: 'top', place: 1 }, { name: 'top', place: 0 }])");
    const { made } = await tryGesture(tab, "top", () => array(tab, "3", "2", "2.54", "-200 mil"));
    assert.equal(made.length, 12);
    assert.deepEqual(made.slice(1, 5), ["insert top 3 flash 10 2540000 0 r0 dark", "insert top 4 flash 11 2540000 3000000 r0 dark",
      "insert top 5 flash 10 5080000 0 r0 dark", "insert top 6 flash 11 5080000 3000000 r0 dark"]);
    assert.equal(made[10], "insert top 12 flash 11 5080000 -2080000 r0 dark");
    await key(tab, "z", CTRL);
    await tab.ask("camplot.pick([{ name: 'top', place: 1 }, { name: 'top', place: 0 }])");
    await array(tab, "3", "2", "2.54", "-200 mil");
    assert.equal((await picked(tab)).length, 12);
  });

  test("numbers that are none are refused, and too many", async () => {
    const tab = await withFile(gerber("X0Y0D03*"));
    await key(tab, "a", CTRL);
    for (const [given, words] of [[["two", "1", "1", "1"], /whole numbers/], [["1", "1", "1", "1"], /whole numbers/],
      [["2", "1", "far", "1"], /A step is a length/], [["100", "51", "1", "1"], /more than 5000/]]) {
      await array(tab, ...given);
      assert.match(await told(tab), words);
    }
    assert.equal(await steps(tab), 0);
  });
});

suite("alignment", () => {
  const FILE = gerber("X0Y0D03*", "D11*", "X5000000Y3000000D03*", "X-4000000Y7000000D03*");

  for (const [name, modifiers, made] of [
    ["ArrowLeft", CTRL, ["move top 0 -4500000 0", "move top 1 -9000000 0"]],
    ["ArrowRight", CTRL, ["move top 0 5500000 0", "move top 2 9000000 0"]],
    ["ArrowUp", CTRL, ["move top 0 0 7000000", "move top 1 0 4000000"]],
    ["ArrowDown", CTRL, ["move top 1 0 -3000000", "move top 2 0 -7000000"]],
    ["i", 0, ["move top 0 500000 0", "move top 1 -4500000 0", "move top 2 4500000 0"]],
    ["I", SHIFT, ["move top 0 0 3500000", "move top 1 0 500000", "move top 2 0 -3500000"]],
  ]) {
    test(`${modifiers} ${name}`, async () => {
      const tab = await withFile(FILE);
      await key(tab, "a", CTRL);
      const found = await tryGesture(tab, "top", () => tab.key(name, modifiers));
      assert.deepEqual(found.made.slice(1, -1), made.filter((line) => !/ 0 0$/.test(line)));
      // What is aligned stays where it is.
      const count = await steps(tab);
      await key(tab, name, modifiers);
      assert.equal(await steps(tab), count);
    });
  }
});

suite("picks", () => {
  const MIXED = gerber("X0Y0D03*", "X4000000Y0D03*", "X0Y4000000D02*", "X4000000Y4000000D01*", "D11*", "X8000000Y0D03*", "G36*",
    "X0Y8000000D02*", "X2000000Y8000000D01*", "X2000000Y9000000D01*", "X0Y8000000D01*", "G37*");
  const places = async (tab) => (await picked(tab)).map((words) => words.split(" ").slice(0, 3).join(" "));

  test("all of the same aperture, and all of the same kind", async () => {
    const tab = await withFile(MIXED);
    await clickAt(tab, 4000000, 0);
    await idle(tab);
    await key(tab, "j");
    assert.deepEqual(await places(tab), ["top 0 flash", "top 1 flash", "top 2 draw"]);
    await clickAt(tab, 4000000, 0);
    await idle(tab);
    await key(tab, "J", SHIFT);
    assert.deepEqual(await places(tab), ["top 0 flash", "top 1 flash", "top 3 flash"]);
    assert.equal(await told(tab), "3 items picked.");
    await tab.ask("camplot.pickPlace('top', 4)");
    await press(tab, "[data-act=like-entry]");
    await idle(tab);
    assert.match(await told(tab), /has no aperture and no tool/);
    await press(tab, "[data-act=like-kind]");
    await idle(tab);
    assert.deepEqual(await places(tab), ["top 4 region"]);
  });

  test("a box from left to right picks what lies in it, one from right to left what it touches", async () => {
    const tab = await withFile(MIXED);
    const drag = async (from, to) => {
      await key(tab, "Escape");
      await tab.drag(await onPage(tab, ...from), await onPage(tab, ...to));
      await idle(tab);
      return places(tab);
    };
    const one = [-1000000, -1000000], other = [3800000, 4200000];
    assert.deepEqual(await drag(one, other), ["top 0 flash"]);
    assert.deepEqual(await drag(other, one), ["top 0 flash", "top 1 flash", "top 2 draw"]);
    assert.deepEqual(await drag([-1000000, 4200000], [3800000, -1000000]), ["top 0 flash"]);
    // Within an item's box, and beside all.
    assert.deepEqual(await drag([2200000, 4100000], [1800000, 3900000]), ["top 2 draw"]);
    assert.deepEqual(await drag([2200000, 2500000], [1800000, 2000000]), []);
    assert.equal(await told(tab), "The box touches no item.");
  });

  test("so many that a box touches, or that are like one, are not picked", async () => {
    const tab = await withFile(gerber(...Array.from({ length: 5001 }, (_, at) => `X${at % 100 * 1000000}Y${Math.floor(at / 100) * 1000000}D03*`)));
    await tab.ask("camplot.pickPlace('top', 7)");
    await key(tab, "j");
    assert.match(await told(tab), /More than 5000 items are like it/);
    await tab.ask(`camplot.machine.gesture({ kind: "pickIn", box: { left: 0, low: 0, right: 200000000, high: 200000000 },
      isTouched: true, isAdded: false, pile: ["top"] })`);
    assert.match(await told(tab), /More than 5,000 items lie there/);
    assert.deepEqual(await places(tab), ["top 7 flash"]);
  });

  test("edges belong to both boxes, and half nm count", async () => {
    const tab = await withFile(Buffer.from("%FSLAX46Y46*%\n%MOMM*%\n%ADD10C,1.000001*%\nG01*\nG75*\nD10*\nX0Y0D03*\nM02*\n"));
    const touched = async (left) => {
      await tab.ask(`camplot.machine.gesture({ kind: "pickIn", box: { left: ${left}, low: 0, right: ${left + 10}, high: 10 },
        isTouched: true, isAdded: false, pile: ["top"] })`);
      return (await picked(tab)).length;
    };
    assert.deepEqual([await touched(500000), await touched(500001)], [1, 0]);
    assert.deepEqual([await touched(-500010), await touched(-500011)], [1, 0]);
  });
});

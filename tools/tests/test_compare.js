// Comparisons of layers by their texts: planted differences are found, and nothing else.

import assert from "node:assert/strict";
import { readFileSync, readdirSync } from "node:fs";
import { join } from "node:path";
import { Shapes, readCanonical } from "../../web/compare/canonical.js";
import { Extents } from "../../web/compare/extents.js";
import { longestRising, matched } from "../../web/compare/matching.js";
import { functionsOfJobs, pairedLayers, tellByJobs } from "../../web/compare/pairs.js";
import { Difference } from "../../web/compare/pixels.js";
import { placesOf, windowOfPlace } from "../../web/compare/places.js";
import { changeWords, placeLine, saidWords } from "../../web/compare/words.js";
import { kindOf } from "../../web/board/file_kinds.js";
import { recogniseFiles } from "../../web/board/layers.js";
import { part, suite, test } from "./harness.js";
import { compared, drillText, foundIn, gerberText, randomFrom } from "./compared_layers.js";
import { REPOSITORY } from "./support.js";

const APERTURES = new Map([[10, "C,0.500000"], [11, "R,1.000000X0.600000"], [12, "O,0.800000X1.200000"]]);
const ITEMS = ["flash 10 0 0 r0 dark", "flash 11 5000000 0 r90 dark", "flash 12 10000000 0 m0 dark", "draw 10 0 5000000 4000000 5000000 r0 dark",
  "arc 10 10000000 5000000 10000000 5000000 11000000 5000000 cw dark", "region dark 0 10000000 l 8000000 10000000 l 8000000 14000000 l 0 14000000 l 0 10000000",
  "flash 10 2000000 12000000 r0 clear", "draw 10 4000000 12000000 6000000 12000000 r0 clear", "flash 10 2000000 12000000 r0 dark",
  "flash 10 20000000 0 r0 dark"];
const ATTRIBUTES = [".FileFunction,Copper,L1,Top", ".CreationDate,2024-09-02T20:14:31+02:00"];
const BOARD = { apertures: APERTURES, items: ITEMS, attributes: ATTRIBUTES };

// The board, in which items are others: by their places.
const withItems = (items) => ({ ...BOARD, items: ITEMS.flatMap((item, at) => items[at] ?? [item]) });
const textOf = (made) => gerberText({ ...BOARD, ...made });
const BASE = textOf({});

// Fails unless the comparison of the board with another finds this, both ways round, and nothing that paints nothing.
function checkFound(second, wanted, back = wanted, places = null) {
  const found = compared(BASE, second);
  assert.deepEqual(foundIn(found), wanted);
  assert.deepEqual(foundIn(compared(second, BASE)), back);
  assert.equal(found.outcome, wanted.length ? "differs" : "same");
  assert.deepEqual([found.said.dates, found.said.attributes, found.said.comments], [[], [], []]);
  if (places !== null) assert.equal(found.places.length, places);
  return found;
}

suite("a planted difference is found, and nothing else", () => {
  test("none", () => {
    const found = checkFound(BASE, []);
    assert.ok(found.isSameText && found.isSameOrder);
  });

  test("an item of each kind is moved by 1 nm", () => {
    const moved = ["flash 10 1 0 r0 dark", "flash 11 5000000 -1 r90 dark", "flash 12 10000001 0 m0 dark", "draw 10 0 5000001 4000000 5000001 r0 dark",
      "arc 10 10000001 5000000 10000001 5000000 11000001 5000000 cw dark",
      "region dark 1 10000000 l 8000001 10000000 l 8000001 14000000 l 1 14000000 l 1 10000000", "flash 10 2000001 12000000 r0 clear"];
    moved.forEach((item, at) => part(item, () => {
      const found = checkFound(textOf(withItems({ [at]: [item] })), ["moved"], ["moved"], 1), [{ dx, dy, from, to }] = found.changes;
      assert.deepEqual([Math.abs(dx + dy), from, to], [1, at, at]);
    }));
    const words = compared(BASE, textOf(withItems({ 0: [moved[0]] })));
    assert.equal(changeWords(words.changes[0], words), "moved by (0.000001, 0.000) mm: flash, circle of 0.500, at (0.000, 0.000)");
    assert.equal(placeLine(words.places[0]), "at (0.000001, 0.000), 0.500001 by 0.500 mm; too small for a pixel");
  });

  test("the diameter of an aperture is another by 1 nm: each item that has it", () => {
    const apertures = new Map([...APERTURES, [11, "R,1.000000X0.600001"]]);
    const found = checkFound(textOf({ apertures }), ["changed aperture"], ["changed aperture"], 1);
    assert.equal(changeWords(found.changes[0], found),
      "another aperture: flash, rectangle of 1.000 by 0.600, at (5.000, 0.000); now flash, rectangle of 1.000 by 0.600001, at (5.000, 0.000)");
    const all = ITEMS.filter((item) => / 10 /.test(item)).map(() => "changed aperture");
    checkFound(textOf({ apertures: new Map([...APERTURES, [10, "C,0.500001"]]) }), all, all);
  });

  test("an item has another aperture, polarity, turn or end", () => {
    for (const [at, item, what] of /** @type {[number, string, string][]} */ ([[0, "flash 11 0 0 r0 dark", "aperture"], [3, "draw 12 0 5000000 4000000 5000000 r0 dark", "aperture"],
      [9, "flash 10 20000000 0 r0 clear", "polarity"], [1, "flash 11 5000000 0 r0 dark", "turn"],
      [3, "draw 10 0 5000000 4000001 5000000 r0 dark", "end"], [4, ITEMS[4].replace("cw", "ccw"), "direction"],
      [5, ITEMS[5].replace("8000000 14000000", "8000000 14000001"), "contour"], [5, ITEMS[5].replace("dark", "clear"), "polarity"]])) {
      part(item, () => checkFound(textOf(withItems({ [at]: [item] })), [`changed ${what}`], [`changed ${what}`], 1));
    }
  });

  test("a corner of a contour leads to that corner", () => {
    const contour = (x) => `region dark 0 10000000 l 8000000 10000000 l 8000000 13900000 l ${x} 14000000 l 7900000 14000000 l 0 14000000 l 0 10000000`;
    const [one, other] = [8_000_000, 8_000_001].map((x) => textOf({ items: [contour(x)] })), found = compared(one, other);
    assert.deepEqual(foundIn(found), ["changed contour"]);
    assert.deepEqual(found.places.map(({ box }) => box), [{ left: 7_900_000, low: 13_900_000, right: 8_000_001, high: 14_000_000 }]);
  });

  test("a contour that begins at another corner is another item, and where it is no place is wrong", () => {
    const turned = "region dark 8000000 10000000 l 8000000 14000000 l 0 14000000 l 0 10000000 l 8000000 10000000";
    checkFound(textOf(withItems({ 5: [turned] })), ["changed contour"]);
  });

  test("an item less, and an item more, also of clear polarity and one that is there twice", () => {
    for (const at of ITEMS.keys()) part(ITEMS[at], () => checkFound(textOf(withItems({ [at]: [] })), ["went"], ["came"], 1));
    checkFound(textOf(withItems({ 2: [ITEMS[2], "flash 12 0 0 r0 clear"] })), ["came"], ["went"], 1);
    checkFound(textOf(withItems({ 0: [ITEMS[0], ITEMS[0]] })), ["came"], ["went"], 1);
    checkFound(textOf(withItems({ 8: [] })), ["went"], ["came"], 1);
  });

  test("a dark and a clear item are exchanged, where they reach into each other", () => {
    const found = checkFound(textOf(withItems({ 6: [ITEMS[8]], 8: [ITEMS[6]] })), ["reordered"], ["reordered"], 1);
    assert.deepEqual(found.places[0].box, { left: 1_750_000, low: 11_750_000, right: 2_250_000, high: 12_250_000 });
    checkFound(textOf(withItems({ 5: [ITEMS[7]], 7: [ITEMS[5]] })), ["reordered"], ["reordered"]);
  });

  test("of one that moved past several, that one alone is told", () => {
    const [clear, ...dark] = ["clear", "dark", "dark", "dark"].map((polarity, at) => `flash 10 ${at * 1000} 0 r0 ${polarity}`);
    const found = compared(textOf({ items: [...dark, clear] }), textOf({ items: [dark[0], clear, dark[1], dark[2]] }));
    assert.deepEqual(found.changes.map(({ what, from, to }) => [what, from, to]), [["reordered", 3, 1]]);
  });

  test("of an item that is there twice the one went that its neighbours tell", () => {
    const [dark, clear] = ["flash 10 0 0 r0 dark", "flash 10 0 0 r0 clear"];
    const found = compared(textOf({ items: [dark, clear, dark, ITEMS[1], ITEMS[2]] }), textOf({ items: [clear, dark, ITEMS[1], ITEMS[3]] }));
    assert.deepEqual(found.changes.map(({ what, from }) => [what, from]), [["went", 0], ["went", 4], ["came", null]]);
  });

  test("another order changes nothing of dark items, and of those that do not reach into each other", () => {
    const dark = checkFound(textOf(withItems({ 0: [ITEMS[4]], 4: [ITEMS[0]] })), []);
    assert.ok(!dark.isSameOrder && !dark.isSameText);
    const apart = checkFound(textOf(withItems({ 6: [ITEMS[9]], 9: [ITEMS[6]] })).replace(/^$/, ""), ["reordered"]);
    assert.equal(apart.changes[0].boxes.length, 1);
    checkFound(textOf({ items: [...ITEMS.slice(0, 6), ITEMS[9], ...ITEMS.slice(6, 9)] }), []);
  });

  test("other numbers of apertures, and apertures that no item has, change nothing", () => {
    const apertures = new Map([[20, APERTURES.get(12)], [21, "C,9.000000"], [12, APERTURES.get(10)], [11, APERTURES.get(11)]]);
    const items = ITEMS.map((item) => item.replace(/^(\w+) 12 /, "$1 20 ").replace(/^(\w+) 10 /, "$1 12 "));
    checkFound(textOf({ apertures, items }), []);
  });

  test("an item stands far from where it was: it moved if others did so too", () => {
    const shifted = ITEMS.slice(0, 3).map((item) => item.replace(/^(flash \d+) (\d+)/, (_, head, x) => `${head} ${Number(x) + 40_000_000}`));
    checkFound(textOf(withItems({ 0: [shifted[0]], 1: [shifted[1]], 2: [shifted[2]] })), ["moved", "moved", "moved"]);
    checkFound(textOf(withItems({ 1: [shifted[1]] })), ["came", "went"]);
  });
});

suite("what paints nothing", () => {
  const file = (date, more = "", comment = "2024-09-02 20:14:31") => BASE.replace("2024-09-02T20:14:31+02:00", date)
    .replace("G01*\n", `G04 Created by KiCad (PCBNEW 8.0.4) date ${comment}*\nG01*\n`).replace("X0Y0D03*\n", `${more}X0Y0D03*\n`);
  const DATE = "2024-09-02T20:14:31+02:00", NET = "%TO.N,GND*%\n", OTHER = "%TO.N,VCC*%\n";
  const said = (one, other) => {
    const found = compared(one.replace(/G04.*\n|%TO.*\n/g, ""), other.replace(/G04.*\n|%TO.*\n/g, ""), "gerber", [one, other]);
    assert.deepEqual([found.outcome, found.changes.length, found.places.length], ["same", 0, 0]);
    const words = (list) => list.map(saidWords);
    return { dates: words(found.said.dates), attributes: words(found.said.attributes), comments: words(found.said.comments) };
  };

  test("a date alone, in an attribute and in a comment", () => {
    assert.deepEqual(said(file(DATE), file(DATE)), { dates: [], attributes: [], comments: [] });
    assert.deepEqual(said(file(DATE), file("2025-01-01T00:00:00+01:00")),
      { dates: ['.CreationDate: "2024-09-02T20:14:31+02:00", now "2025-01-01T00:00:00+01:00"'], attributes: [], comments: [] });
    const { dates, attributes, comments } = said(file(DATE), file(DATE, "", "2025-01-01 00:00:00"));
    assert.deepEqual([dates.length, attributes, comments], [1, [], []]);
    assert.match(dates[0], /^1 comment: "Created by KiCad/);
  });

  test("another version in a comment is no date", () => {
    const { dates, comments } = said(file(DATE), file(DATE).replace("8.0.4", "8.0.5"));
    assert.deepEqual([dates, comments.length], [[], 1]);
  });

  test("an attribute alone, of the file and of an item", () => {
    assert.deepEqual(said(file(DATE), file(DATE).replace("Copper,L1,Top", "Copper,L1,Top,Signal")).attributes,
      ['.FileFunction: "Copper,L1,Top", now "Copper,L1,Top,Signal"']);
    assert.deepEqual(said(file(DATE, NET), file(DATE, OTHER)), { dates: [], comments: [], attributes: [`.N of ${ITEMS.length} items: "GND", now "VCC"`] });
    assert.deepEqual(said(file(DATE), file(DATE, NET)).attributes, [`.N of ${ITEMS.length} items: nothing, now "GND"`]);
  });

  test("attributes of equal items are a set", () => {
    const twice = (first, second) => `${textOf({ items: [], attributes: [] }).replace("M02*\n", "")}D10*\n%TO.N,${first}*%\nX0Y0D03*\n%TO.N,${second}*%\nX0Y0D03*\nM02*\n`;
    assert.deepEqual(said(twice("A", "B"), twice("B", "A")).attributes, []);
    assert.deepEqual(said(twice("B", "A"), twice("A", "B")).attributes, []);
    assert.deepEqual(said(twice("A", "B"), twice("B", "B")).attributes, ['.N of 1 item: "A", now "B"']);
  });

  test("attributes of tools, in comments of a drill file", () => {
    const text = drillText({ tools: new Map([[1, "0.400000"], [2, "0.800000"]]), items: ["hit 1 0 0", "hit 2 5000000 0"] });
    const raw = (of) => text.replace("T2C", `; #@! TA.AperFunction,${of}\nT2C`);
    const found = compared(text, text, "drill", [raw("Plated,PTH,ViaDrill"), raw("NonPlated,NPTH")]);
    assert.deepEqual([found.outcome, found.said.attributes.map(saidWords)],
      ["same", ['.AperFunction of 1 item: "Plated,PTH,ViaDrill", now "NonPlated,NPTH"']]);
  });
});

suite("holes", () => {
  const TOOLS = new Map([[1, "0.400000"], [2, "0.800000"]]);
  const HOLES = ["hit 1 0 0", "hit 1 5000000 0", "rout 2 0 5000000 3000000 5000000 3000000 9000000", "hit 2 10000000 0"];
  const found = (items, tools = TOOLS) => foundIn(compared(drillText({ tools: TOOLS, items: HOLES }), drillText({ tools, items }), "drill"));

  test("are found by their tool and their place", () => {
    assert.deepEqual(found(HOLES), []);
    assert.deepEqual(found(HOLES.slice(1)), ["went"]);
    assert.deepEqual(found([...HOLES, HOLES[0]]), ["came"]);
    assert.deepEqual(found(["hit 1 1 0", ...HOLES.slice(1)]), ["moved"]);
    assert.deepEqual(found(["hit 2 0 0", ...HOLES.slice(1)]), ["changed tool"]);
    assert.deepEqual(found(HOLES, new Map([[1, "0.400000"], [2, "0.800001"]])), ["changed tool", "changed tool"]);
    assert.deepEqual(found([HOLES[0], HOLES[1], HOLES[2].replace("9000000", "9000001"), HOLES[3]]), ["changed end"]);
  });

  test("are the same in another order, and under other numbers of tools", () => {
    assert.deepEqual(found([...HOLES].reverse()), []);
    assert.deepEqual(found(HOLES.map((item) => item.replace(" 1 ", " 7 ")), new Map([[7, "0.400000"], [2, "0.800000"]])), []);
  });
});

suite("the parts", () => {
  test("a canonical text of each case of black_box is read, with as many items as the station has", () => {
    const folder = join(REPOSITORY, "black_box", "cases");
    let count = 0;
    for (const name of readdirSync(folder)) {
      const written = join(folder, name, "written");
      let texts = [];
      try {
        texts = readdirSync(written).filter((file) => /\.(gbr|drl)$/.test(file));
      } catch {
        continue;
      }
      for (const file of texts) {
        part(`${name} ${file}`, () => {
          const bytes = readFileSync(join(written, file)), kind = kindOf(bytes), shapes = new Shapes();
          if (kind === null || bytes.length > 1 << 20) return;
          const { items } = readCanonical(kind, bytes, shapes), extents = new Extents(shapes);
          for (const item of items) for (const side of Object.values(extents.box(item))) assert.ok(Number.isFinite(side), item);
          count++;
        });
      }
    }
    assert.ok(count > 50, String(count));
  });

  test("what is no canonical text is told", () => {
    for (const text of ["X1Y1D03*\n", "hello\n", "constructor\n", "__proto__\n", "%LPX*%\n%XX*%\n", "G37*\n", "D10*\n", "%AB*%\n"]) {
      assert.throws(() => readCanonical("gerber", Buffer.from(text), new Shapes()), /no line of a canonical text/, text);
    }
    assert.throws(() => readCanonical("drill", Buffer.from("T1\n"), new Shapes()), /no line of a canonical text/);
  });

  test("boxes of turned shapes, arcs, blocks and repeats", () => {
    const lines = ["%ADD10R,2.000000X1.000000*%", "%ABD11*%", "D10*", "X1000000Y0D03*", "%AB*%", "%AMM12*", "1,1,1.000000,2.000000,0.000000,0*", "%", "%ADD12M12*%",
      "%LMX*%", "%LR90*%", "D10*", "X0Y0D03*", "D11*", "X0Y0D03*", "%LMN*%", "%LR0*%", "D12*", "X0Y0D03*", "%SRX2Y3I5.000000J7.000000*%", "D10*", "X0Y0D03*", "%SR*%"];
    const shapes = new Shapes(), { items } = readCanonical("gerber", Buffer.from(`${lines.join("\n")}\nM02*\n`), shapes), extents = new Extents(shapes);
    const mm = (item) => Object.values(extents.box(item)).map((side) => side / 1e6);
    assert.deepEqual(items.map(mm), [[-0.5, -1, 0.5, 1], [-0.5, -2, 0.5, 0], [1.5, -0.5, 2.5, 0.5], [-1, -0.5, 6, 14.5]]);
    const circle = shapes.numberOf("C,0.000002");
    assert.deepEqual(Object.values(extents.box(`arc ${circle} 1000 0 0 1000 0 0 ccw dark`)), [-1, -1, 1001, 1001]);
    assert.deepEqual(Object.values(extents.box(`arc ${circle} 1000 0 0 1000 0 0 cw dark`)), [-1001, -1001, 1001, 1001]);
    assert.ok(extents.boxes(`draw ${circle} 0 0 100000000 100000000 r0 dark`).length > 10);
  });

  test("the longest rising numbers, beside all subsequences", () => {
    const random = randomFrom(5);
    for (let round = 0; round < 300; round++) {
      const numbers = Array.from({ length: 1 + random(9) }, () => random(6)), isIn = longestRising(numbers);
      const rises = (kept) => kept.every((value, at) => at === 0 || kept[at - 1] <= value);
      let most = 0;
      for (let set = 0; set < 1 << numbers.length; set++) {
        const kept = numbers.filter((_, at) => set & (1 << at));
        if (rises(kept)) most = Math.max(most, kept.length);
      }
      const kept = numbers.filter((_, at) => isIn[at]);
      assert.ok(rises(kept));
      assert.equal(kept.length, most, numbers.join());
    }
  });

  test("a matching takes each item once, and as many as the multisets share", () => {
    const random = randomFrom(6);
    for (let round = 0; round < 500; round++) {
      const list = () => Array.from({ length: random(12) }, () => String(random(5))), [one, other] = [list(), list()];
      const { places, went, came } = matched(one, other), taken = [...places].filter((place) => place >= 0);
      assert.equal(new Set(taken).size, taken.length);
      places.forEach((place, at) => assert.ok(place < 0 || one[at] === other[place]));
      let shared = 0;
      for (const value of new Set(one)) shared += Math.min(...[one, other].map((items) => items.filter((item) => item === value).length));
      assert.deepEqual([taken.length, went.length, came.length], [shared, one.length - shared, other.length - shared]);
    }
  });

  test("boxes that lie near one another are a place, beside a flood over all of them", () => {
    const random = randomFrom(7);
    for (let round = 0; round < 40; round++) {
      const boxes = Array.from({ length: 1 + random(30) }, (_, owner) => {
        const left = 3_000_000 * random(12), low = 3_000_000 * random(12);
        return { owner, box: { left, low, right: left + 1_000_000 * random(5), high: low + 1_000_000 * random(5) } };
      });
      const near = (one, other) => one.left <= other.right && other.left <= one.right && one.low <= other.high && other.low <= one.high;
      const left = new Set(boxes), groups = [];
      for (const first of boxes) {
        if (!left.delete(first)) continue;
        const group = [first];
        for (const { box } of group) for (const next of [...left]) if (near(box, next.box) && left.delete(next)) group.push(next);
        groups.push(group.map(({ owner }) => owner).sort((a, b) => a - b));
      }
      const byFirst = (one, other) => one[0] - other[0];
      assert.deepEqual(placesOf(boxes).map(({ owners }) => owners).sort(byFirst), groups.sort(byFirst));
    }
  });

  test("boxes in cells that touch by a corner are a place", () => {
    const box = (left, low) => ({ left, low, right: left + 1, high: low + 1 });
    for (const [one, other] of [[box(0, 0), box(260_000, 260_000)], [box(0, 260_000), box(260_000, 0)]]) {
      assert.equal(placesOf([{ box: one, owner: 0 }, { box: other, owner: 1 }]).length, 1);
    }
    assert.equal(placesOf([{ box: box(0, 0), owner: 0 }, { box: box(0, 500_001), owner: 1 }]).length, 2);
  });

  test("pixels that differ are counted, by their side and their place", () => {
    const picture = (...bytes) => ({ width: 16, height: 4, stride: 2, bits: Uint8Array.from(bytes) });
    const window = { x: 0, y: 0, pitch: 1_000_000, width: 16, height: 4 };
    const difference = new Difference(picture(0xc0, 0, 0, 0, 0, 0, 0, 0), picture(0x80, 0, 0, 0, 0, 0, 0, 3), window);
    assert.equal(difference.count, 3);
    const places = placesOf([], difference);
    assert.deepEqual(places.map(({ onlyFirst, onlySecond, box }) => [onlyFirst, onlySecond, box]),
      [[1, 0, { left: 1_500_000, low: 3_500_000, right: 1_500_000, high: 3_500_000 }], [0, 2, { left: 14_500_000, low: 500_000, right: 15_500_000, high: 500_000 }]]);
    assert.throws(() => new Difference(picture(0, 0, 0, 0, 0, 0, 0, 0), { ...picture(0, 0, 0, 0, 0, 0, 0, 0), width: 8, stride: 1 }, window), RangeError);
  });

  test("the window of a place has it in its middle, and stays on the board", () => {
    const { x, y, pitch } = windowOfPlace({ left: 0, low: 0, right: 1, high: 1 }, 100, 50);
    assert.ok(Math.abs(x + 50 * pitch) < pitch && Math.abs(y + 25 * pitch) < pitch);
    const edge = windowOfPlace({ left: 999_999_990, low: -999_999_990, right: 999_999_999, high: -999_999_980 }, 100, 50);
    assert.ok(edge.x + 100 * edge.pitch <= 1e9 && edge.y >= -1e9);
  });
});

suite("pairs", () => {
  const FUNCTION = (value) => Buffer.from(`%TF.FileFunction,${value}*%\n%FSLAX46Y46*%\n%MOMM*%\nM02*\n`);
  const PLAIN = Buffer.from("%FSLAX46Y46*%\n%MOMM*%\nG04 plain*\nM02*\n");
  const layersOf = (files) => recogniseFiles(Object.entries(files).map(([name, bytes]) => ({ name, bytes })), true).layers;
  /** @type {[Map<string, string>, Map<string, string>]} */
  const NO_JOBS = [new Map(), new Map()];
  const paired = (first, second, jobs = NO_JOBS) => {
    const { pairs, onlyFirst, onlySecond } = pairedLayers(first, second, jobs);
    return [pairs.map(({ first: a, second: b, by }) => `${a.file.name} ${b.file.name} ${by}`).sort(), onlyFirst.map(({ file }) => file.name), onlySecond.map(({ file }) => file.name)];
  };

  test("are layers that show the same, whatever their files are called; others are left", () => {
    const first = layersOf({ "a-F_Cu.gbr": FUNCTION("Copper,L1,Top"), "a-B_Cu.gbr": FUNCTION("Copper,L2,Bot"), "a-F_Mask.gbr": PLAIN });
    const second = layersOf({ "x1.gbr": FUNCTION("Copper,L2,Bot"), "x2.gbr": FUNCTION("Copper,L1,Top"), "x.gto": PLAIN });
    assert.deepEqual(paired(first, second), [["a-B_Cu.gbr x1.gbr what they show", "a-F_Cu.gbr x2.gbr what they show"], ["a-F_Mask.gbr"], ["x.gto"]]);
  });

  test("of several layers that show the same, names decide; then equal files", () => {
    const holes = (value) => Buffer.from(`M48\n; #@! TF.FileFunction,${value}\nMETRIC\nT1C0.4\n%\nT1\nX1.0Y1.0\nM30\n`);
    const first = layersOf({ "a-L1-L2.drl": holes("Plated,1,2,Blind"), "a-L1-L4.drl": holes("Plated,1,4,PTH"), "a1.gbr": FUNCTION("Other,Notes"), "a2.gbr": FUNCTION("Other,Notes") });
    const second = layersOf({ "b-L1-L4.drl": holes("Plated,1,4,PTH"), "b-L1-L2.drl": holes("Plated,1,2,Blind"), "b2.gbr": FUNCTION("Other,Notes"), "b1.gbr": FUNCTION("Other,Notes") });
    assert.deepEqual(paired(first, second)[0].map((line) => line.replace(" what they show", "")),
      ["a-L1-L2.drl b-L1-L2.drl", "a-L1-L4.drl b-L1-L4.drl", "a1.gbr b1.gbr", "a2.gbr b2.gbr"]);
    assert.deepEqual(paired(layersOf({ "one.gbr": PLAIN }), layersOf({ "two.gbr": PLAIN })), [["one.gbr two.gbr equal files"], [], []]);
  });

  test("a layer whose attribute is another one has its file's name", () => {
    const first = layersOf({ "a.gbr": FUNCTION("Copper,L1,Top") }), second = layersOf({ "a.gbr": FUNCTION("Legend,Top") });
    assert.deepEqual(paired(first, second), [["a.gbr a.gbr their names"], [], []]);
  });

  test("a job file tells what files show that do not say it", () => {
    const job = { name: "x.gbrjob", bytes: Buffer.from(JSON.stringify({ FilesAttributes: [{ Path: "sub/three.gbr", FileFunction: "Copper,L3,Inr" }, { Path: 5 }, null] })) };
    const functions = functionsOfJobs([job, { name: "bad.gbrjob", bytes: Buffer.from("{") }]), first = layersOf({ "three.gbr": PLAIN });
    tellByJobs(first, functions);
    assert.equal(first[0].layerFunction.label, "inner copper 2");
    const second = layersOf({ "inner.gbr": Buffer.from(`G04 other*\n${FUNCTION("Copper,L3,Inr")}`) });
    assert.deepEqual(paired(first, second, [functions, new Map()]), [["three.gbr inner.gbr what they show"], [], []]);
  });
});

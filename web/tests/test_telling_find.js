// Finding nets, components, pins, apertures, tools, attributes and places as a person types.

import assert from "node:assert/strict";
import { part, suite, test } from "../../tools/tests/harness.js";
import { aperture, layer, layerOfText, nightlightOutline, nightlightPlated, nightlightTop } from "./telling.js";
import { find, placeIn } from "../telling/find.js";
import { folded, indexOf } from "../telling/search_index.js";

const HEAD = "%FSLAX46Y46*%\n%MOMM*%\n%ADD10C,0.25*%\nD10*\n";
const PEN = aperture(10, "C,0.250000");

const board = () => indexOf([nightlightTop(), nightlightPlated(), nightlightOutline()], "mm");
// What is found, in short: the groups with their counts, and each result with how it matches.
const short = ({ groups }) => groups.map(({ kind, count, results }) => [kind, count, ...results.map(({ text, match }) => `${text}: ${match}`)]);
const file = (text, parts) => layerOfText(`${HEAD}${text}M02*\n`, PEN, parts);

suite("a board of KiCad", () => {
  test("is found by its nets, components and pins, what is the text first", () => {
    const index = board();
    assert.deepEqual(short(find(index, "r1")), [["component", 2, "R1: exact", "LDR1: within"],
      ["pin", 4, "R1-1: prefix", "R1-2: prefix", "LDR1-1: within", "LDR1-2: within"]]);
    assert.deepEqual(short(find(index, " GnD ")), [["net", 1, "GND: exact"]]);
    assert.deepEqual(short(find(index, "net-(d1")), [["net", 2, "Net-(D1-A): prefix", "Net-(D1-K): prefix"]]);
    for (const query of ["Q1 3", "q1.3", "Q1-3"]) assert.deepEqual(short(find(index, query)), [["pin", 1, "Q1-3: exact"]]);
    assert.deepEqual(short(find(index, "pin_2")), [["pin", 1, "J1-2: exact"]]);
    assert.deepEqual(short(find(index, "nothing of this name")), []);
    assert.deepEqual(find(index, "  "), { query: "  ", count: 0, shown: 0, groups: [] });
  });

  test("lights the items of what is found", () => {
    const index = board(), lights = (query) => find(index, query).groups[0].results[0].lights;
    assert.deepEqual(lights("R1"), [{ layer: "top", places: [2, 3] }]);
    assert.deepEqual(lights("R1-2"), [{ layer: "top", places: [3] }]);
    assert.deepEqual(lights("D16"), [{ layer: "top", places: [13, 14, 15, 16] }]);
    assert.deepEqual(lights("T3"), [{ layer: "plated", places: [6, 7] }]);
    assert.deepEqual(lights("Net-(D1-A)")[0].places.slice(0, 2), [3, 7]);
    assert.deepEqual(index.get("component", "LDR1").lights, [{ layer: "top", places: [11, 12] }]);
    assert.deepEqual(index.get("aperture", "outline D10").lights, [{ layer: "outline", places: [0, 1, 2, 3, 4, 5, 6, 7] }]);
    assert.equal(index.get("net", "constructor"), null);
  });

  test("is found by the words and functions of apertures and tools, and by attributes", () => {
    const index = board();
    assert.deepEqual(short(find(index, "via")), [["tool", 1, "T1: exact"], ["aperture", 1, "D16: prefix"],
      ["attribute", 2, ".AperFunction ViaPad: prefix", ".AperFunction Plated,PTH,ViaDrill: within"]]);
    assert.deepEqual(short(find(index, "round rect")), [["aperture", 3, "D12: prefix", "D13: prefix", "D14: prefix"]]);
    assert.deepEqual(short(find(index, "RoundRect")), [["aperture", 3, "D12: exact", "D13: exact", "D14: exact"]]);
    assert.deepEqual(find(index, "d12").groups[0].results[0].detail, "round rectangle 1.025 by 1.40 mm, SMD pad, defined by the copper, top copper");
    assert.deepEqual(find(index, "0.40 mm").groups[0].results.map(({ text, detail }) => [text, detail]), [["T1", "0.40 mm, via, plated holes"]]);
    const [{ results: [copper] }] = find(index, "FileFunction Copper").groups;
    assert.deepEqual([copper.text, copper.lights], [".FileFunction Copper,L1,Top", [{ layer: "top", places: null }]]);
    // both files of Gerber were made on one day, and so was that of the holes
    assert.deepEqual(find(index, ".CreationDate").groups[0].results[0].lights.map((each) => each.layer), ["top", "plated", "outline"]);
  });

  test("shows sizes in the unit", () => {
    const index = indexOf([layer({ name: "top", entries: aperture(10, "C,1.270000") })], "mil");
    assert.deepEqual(short(find(index, "circle 50.0 mil")), [["aperture", 1, "D10: exact"]]);
    assert.deepEqual(find(index, "d10").groups[0].results[0].lights, []);
  });
});

suite("a place", () => {
  test("is found by its text, before all else", () => {
    const index = indexOf([file("%TO.N,1 2*%\nX0Y0D03*\n")], "mm"), [first, second] = find(index, "1 2").groups;
    assert.deepEqual(first, { kind: "place", count: 1, results: [{ kind: "place", id: "1.000, 2.000 mm", text: "1.000, 2.000 mm", detail: "", match: "exact",
      lights: [], place: [1_000_000, 2_000_000] }] });
    assert.deepEqual([second.kind, second.count], ["net", 1]);
  });

  test("is two lengths of the unit, or with their own", () => {
    for (const [text, unit, place] of [["108.585 -125.730", "mm", [108585000, -125730000]], ["108.585, -125.730", "mm", [108585000, -125730000]],
      ["1 2", "in", [25400000, 50800000]], ["100 .5", "mil", [2540000, 12700]], ["1in 2 mm", "mm", [25400000, 2000000]],
      ["1 2 in", "mm", [25400000, 50800000]], [" 1,2 ", "mm", [1000000, 2000000]], ["1;2", "mm", [1000000, 2000000]],
      ["999.999999 -999.999999", "mm", [999999999, -999999999]], ["1000 0", "mm", null], ["1", "mm", null], ["1 2 3", "mm", null],
      ["1e3 2", "mm", null], ["1 2 miles", "mm", null], ["R1 2", "mm", null], ["", "mm", null], ["1 MM, 2 MM", "in", [1000000, 2000000]]]) {
      part(`${text} ${unit}`, () => assert.deepEqual(placeIn(text, unit), place));
    }
  });
});

suite("many results", () => {
  const nets = (count, name) => Array.from({ length: count }, (_, at) => `%TO.N,${name}${at + 1}*%\nX0Y0D03*\n`).join("");

  test("are counted, and some of them shown in the order of people", () => {
    const found = find(indexOf([file(nets(300, "N"))], "mm"), "n", { most: 50 });
    assert.deepEqual([found.count, found.shown, found.groups.length], [300, 50, 1]);
    assert.deepEqual(found.groups[0].results.slice(0, 11).map(({ text }) => text), ["N1", "N2", "N3", "N4", "N5", "N6", "N7", "N8", "N9", "N10", "N11"]);
    assert.equal(find(indexOf([file(nets(300, "N"))], "mm"), "N30").groups[0].results[1].text, "N300");
  });

  test("leave room for each kind", () => {
    const parts = Array.from({ length: 30 }, (_, at) => `%TO.P,X${at + 1},1*%\nX0Y0D03*\n`).join("");
    const index = indexOf([file(`${nets(300, "aX")}%TD*%\n${parts}`)], "mm"), found = find(index, "x", { most: 20 });
    assert.deepEqual(found.groups.map(({ kind, count, results }) => [kind, count, results.length]), 
      [["component", 30, 8], ["pin", 30, 6], ["net", 300, 6]]);
    assert.deepEqual([found.count, found.shown], [360, 20]);
    assert.deepEqual(find(index, "x", { most: 2 }).groups.map(({ results }) => results.length), [2, 0, 0]);
    assert.deepEqual(find(index, "x", { most: 1000 }).groups.map(({ results }) => results.length), [30, 30, 300]);
  });
});

suite("items", () => {
  test("of a repeat and of a block light what has them", () => {
    const text = `${HEAD}%TO.N,INNER*%\n%ABD12*%\nX0Y0D03*\n%AB*%\n%TD*%\n%TO.N,OUTER*%\nD12*\nX0Y0D03*\n%TD*%\n%SRX2Y1I5.0J0*%\nD10*\n%TO.N,COPY*%\n`
      + "X0Y0D03*\nX1Y0D03*\n%SR*%\n%TD*%\nX0Y0D03*\nM02*\n";
    const index = indexOf([layerOfText(text, [...PEN, "block 12 1", "  flash 10 0 0 r0 dark"],
      { name: "top", items: ["flash 12 0 0 r0 dark", "repeat 2 1 5000000 0 2", "  flash 10 0 0 r0 dark", "  flash 10 1 0 r0 dark", "flash 10 0 0 r0 dark"] })], "mm");
    const places = (kind, id) => index.get(kind, id)?.lights.map((each) => each.places);
    assert.deepEqual(places("net", "INNER"), [[0]]);
    assert.deepEqual(places("net", "OUTER"), [[0]]);
    assert.deepEqual(places("net", "COPY"), [[1]]);
    assert.deepEqual(places("aperture", "top D12"), [[0]]);
    assert.deepEqual(places("aperture", "top D10"), [[0, 1, 2]]);
  });

  test("have what is said of them now, where edits moved them", () => {
    const own = file("%TO.N,A*%\nX0Y0D03*\n%TO.N,B*%\nX0Y0D03*\n"), [one, other] = own.said;
    const moved = layer({ name: "top", items: own.items.map(({ words }) => words), entries: PEN, says: own.says, said: [other, one] });
    assert.deepEqual(indexOf([moved], "mm").get("net", "A").lights, [{ layer: "top", places: [1] }]);
  });

  test("of two layers are told apart, and components have their values", () => {
    const index = indexOf([file("%TO.P,R1,1*%\nX0Y0D03*\n", { name: "top" }),
      file("%TO.C,R1*%\n%TO.CVal,10k*%\nX1Y0D03*\n%TO.C,R2*%\n%TO.CVal,10k*%\nX2Y0D03*\n", { name: "places" })], "mm");
    assert.deepEqual(index.get("component", "R1").lights, [{ layer: "top", places: [0] }, { layer: "places", places: [0] }]);
    assert.deepEqual(short(find(index, "10K")), [["component", 2, "R1: exact", "R2: exact"], ["attribute", 1, ".CVal 10k: exact"]]);
    assert.deepEqual(index.get("attribute", ".CVal 10k").lights, [{ layer: "places", places: [0, 1] }]);
  });

  test("of a pin are found by what the pin does, in several words too", () => {
    const index = indexOf([file("%TO.P,U1,7,Serial data*%\nX0Y0D03*\n")], "mm");
    assert.deepEqual(short(find(index, "serial d")), [["pin", 1, "U1-7: prefix"]]);
    assert.equal(find(index, "u1 7").groups[0].results[0].detail, "Serial data");
  });

  test("texts are compared without blanks that are many, and in small letters", () => {
    assert.equal(folded("  \u00c9  A\tb "), "\u00e9 a b");
  });
});

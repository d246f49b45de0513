// The words of an item: what it is, how large, where, and what its file says of it.

import assert from "node:assert/strict";
import { part, suite, test } from "../../tools/tests/harness.js";
import { aperture, cornersOf, layer, layerOfText, nightlightOutline, nightlightPlated, nightlightTop, nightlightUnplated, roundRectangle,
  tool } from "./telling.js";
import { componentsOf } from "../telling/attributes.js";
import { fileSays } from "../telling/files.js";
import { itemWords, sentenceOf } from "../telling/item.js";
import { boxOf, cornersOf as cornersOfWays, itemOf, lengthOf } from "../telling/paths.js";
import { latin1Bytes } from "../bytes/index.js";

const HEAD = "%FSLAX46Y46*%\n%MOMM*%\n";

const told = (from, place, unit = "mm") => itemWords(from, place, { unit });
// The words of one item of a layer without a file.
const head = (words, entries = [], { unit = "mm", ...parts } = {}) => told(layer({ items: [words].flat(), entries, ...parts }), 0, unit).head;
const flash = (definition, turn = "r0", unit = "mm") => head(`flash 10 1000000 -2000000 ${turn} dark`,
  Array.isArray(definition) ? definition : aperture(10, definition), { unit });

suite("a board of KiCad", () => {
  test("tells its pads with net, component and pin", () => {
    const top = nightlightTop();
    assert.deepEqual(told(top, 2), {
      head: "pad, round rectangle 1.025 by 1.40 mm, at 109.0875, -85.000",
      rows: [["net", "+5V"], ["component", "R1"], ["pin", "1"], ["function", "SMD pad, defined by the copper"],
        ["aperture", "D12, round rectangle 1.025 by 1.40 mm, corners of radius 0.25 mm"], ["layer", "top copper"]],
      line: "flash 12 109087500 -85000000 r0 dark",
    });
    assert.equal(sentenceOf(told(top, 0)), "pad, rectangle 1.70 by 1.70 mm, at 104.000, -88.730; net +5V; component J1; pin 1 (Pin_1); "
      + "function pad of a lead through the board; layer top copper");
    assert.equal(sentenceOf(told(top, 13)), "via, circle 0.80 mm, at 116.0625, -93.400; net GND; function via pad; layer top copper");
    assert.equal(told(top, 1).head, "pad, obround 1.70 by 1.70 mm, at 104.000, -91.270");
    assert.equal(told(top, 8).head, "pad, round rectangle 1.475 by 0.60 mm, at 116.0625, -90.050");
  });

  test("tells its tracks, straight and along arcs", () => {
    const top = nightlightTop(), places = top.items.map(({ words }) => words);
    assert.equal(told(top, 17).head, "track 0.50 mm wide, 2.00 mm long, from 104.000, -88.730 to 106.000, -88.730");
    // 3.0875 mm both ways: 4.36638.. mm
    assert.equal(told(top, 18).head, "track 0.50 mm wide, about 4.366 mm long, from 106.000, -88.730 to 109.0875, -85.6425");
    const arc = places.findIndex((words) => words.startsWith("arc"));
    // a quarter of a circle of 1.5 mm: 2.35619.. mm
    assert.equal(told(top, arc).head, "track 0.30 mm wide along an arc of radius 1.50 mm, clockwise about 118.500, -86.500, "
      + "about 2.356 mm long, from 118.500, -85.000 to 120.000, -86.500");
    assert.deepEqual(told(top, arc).rows, [["net", "Net-(D1-K)"], ["function", "conductor"], ["aperture", "D18, circle 0.30 mm"],
      ["layer", "top copper"]]);
  });

  test("tells its outline and its holes", () => {
    assert.equal(told(nightlightOutline(), 0).head, "outline 0.10 mm wide, 26.00 mm long, from 102.000, -80.000 to 128.000, -80.000");
    assert.equal(sentenceOf(told(nightlightPlated(), 0)), "hole 0.40 mm, plated, at 116.0625, -93.400; function via; layer plated holes");
    assert.equal(told(nightlightPlated(), 6).head, "hole 1.00 mm, plated, at 104.000, -88.730");
    assert.deepEqual(told(nightlightUnplated(), 0), {
      head: "slot 1.20 mm wide, 4.20 mm long over all, not plated, from 126.500, -84.000 to 126.500, -87.000",
      rows: [["function", "lead of a component"], ["tool", "T1, 1.20 mm"], ["layer", "holes without plating"]],
      line: "rout 1 126500000 -84000000 126500000 -87000000",
    });
  });

  test("is told in inches and mils too", () => {
    const top = nightlightTop();
    // 1.025 mm is 0.04035433.. in, 1.4 mm 0.05511811..; 109.0875 mm 4.29478346.., 85 mm 3.34645669..
    assert.equal(told(top, 2, "in").head, "pad, round rectangle 0.04035433 by 0.05511811 in, at 4.29478346, -3.34645669");
    assert.equal(told(layer({ items: ["flash 10 2540000 -5080 r0 dark"], entries: aperture(10, "C,1.270000") }), 0, "mil").head,
      "pad, circle 50.0 mil, at 100.0, -0.2");
    assert.equal(told(layer({ items: ["draw 10 0 0 25400000 25400000 r0 dark"], entries: aperture(10, "C,0.254000") }), 0, "in").head,
      "track 0.010 in wide, about 1.4142 in long, from 0.0000, 0.0000 to 1.0000, 1.0000");
    assert.equal(told(layer({ items: ["draw 10 0 0 25400000 25400000 r0 dark"], entries: aperture(10, "C,0.254000") }), 0, "mil").head,
      "track 10.0 mil wide, about 1414.2 mil long, from 0.0, 0.0 to 1000.0, 1000.0");
  });
});

suite("an aperture", () => {
  test("of the standard has its sizes as it lies, and its hole", () => {
    for (const [definition, turn, words] of [
      ["C,1.000000", "r0", "circle 1.00 mm"], ["C,1.000000X0.300000", "r90", "circle 1.00 mm, with a hole of 0.30 mm"],
      ["R,1.500000X0.600000", "r0", "rectangle 1.50 by 0.60 mm"], ["R,1.500000X0.600000", "r90", "rectangle 0.60 by 1.50 mm"],
      ["R,1.500000X0.600000", "m180", "rectangle 1.50 by 0.60 mm"], ["O,1.000000X2.000001", "r270", "obround 2.000001 by 1.00 mm"],
      ["O,1.000000X2.000000X0.500000", "r0", "obround 1.00 by 2.00 mm, with a hole of 0.50 mm"],
      ["P,2.000000X6", "r0", "polygon of 6 corners on a circle of 2.00 mm"],
      ["P,2.000000X6X15.000000X0.800000", "r0", "polygon of 6 corners on a circle of 2.00 mm, turned by 15°, with a hole of 0.80 mm"],
      // first corners at 15°, 105°, .. every 60°; mirrored at 165°, so at 45°
      ["P,2.000000X6X15.000000", "r90", "polygon of 6 corners on a circle of 2.00 mm, turned by 45°"],
      ["P,2.000000X6X15.000000", "m0", "polygon of 6 corners on a circle of 2.00 mm, turned by 45°"],
      ["P,2.000000X5", "r90", "polygon of 5 corners on a circle of 2.00 mm, turned by 18°"],
      // the corner to the right comes to the left, two and a half steps of 72° on
      ["P,2.000000X5", "m0", "polygon of 5 corners on a circle of 2.00 mm, turned by 36°"],
      ["P,2.000000X5X10.000000", "m0", "polygon of 5 corners on a circle of 2.00 mm, turned by 26°"],
    ]) part(`${definition} ${turn}`, () => assert.equal(flash(definition, turn), `pad, ${words}, at 1.000, -2.000`));
  });

  test("that is a round rectangle is one by its primitives, turned too", () => {
    // 1.2 by 0.6 mm with corners of 0.1 mm, by 45 degrees; a corner of (0.5, 0.2) lies at (0.212132, 0.494975)
    const turned = roundRectangle(10, 0.1, [[0.212132, 0.494975], [-0.494975, -0.212132], [-0.212132, -0.494975], [0.494975, 0.212132]]);
    assert.equal(flash(turned), "pad, round rectangle about 1.20 by 0.60 mm, turned by 45°, at 1.000, -2.000");
    assert.equal(flash(turned, "r90"), "pad, round rectangle about 0.60 by 1.20 mm, turned by 45°, at 1.000, -2.000");
    // corners that fall together, as where the radius is half of the height
    assert.equal(flash(roundRectangle(10, 0.5, cornersOf(0.4, 0))), "pad, round rectangle 1.80 by 1.00 mm, at 1.000, -2.000");
    const altium = ["aperture 10", "%AMM10*", "21,1,1.000000,0.400000,0.000000,0.000000,0*", "21,1,0.800000,0.600000,0.000000,0.000000,0*",
      ...[[0.4, 0.2], [-0.4, 0.2], [-0.4, -0.2], [0.4, -0.2]].map(([x, y]) => `1,1,0.200000,${x.toFixed(6)},${y.toFixed(6)},0*`), "%", "%ADD10M10*%"];
    assert.equal(flash(altium), "pad, round rectangle 1.00 by 0.60 mm, at 1.000, -2.000");
  });

  test("that lacks a part of a round rectangle is none", () => {
    const whole = roundRectangle(10, 0.25, cornersOf(0.25, 0.5)), without = (at) => whole.filter((_, index) => index !== at);
    assert.equal(flash(whole), "pad, round rectangle 1.00 by 1.50 mm, at 1.000, -2.000");
    for (let at = 2; at < 11; at++) {
      part(`without line ${at}`, () => assert.match(flash(without(at)), /^pad, shape of 8 primitives, 1\.00 by 1\.50 mm, at 1\.000, -2\.000$/));
    }
    const moved = whole.map((line) => line.replace("1,1,0.500000,0.250000,0.500000", "1,1,0.500000,0.250000,0.400000"));
    assert.match(flash(moved), /shape of 9 primitives/);
    // one side twice, and another one not
    const twice = whole.map((line, at) => at === 7 ? whole[8] : line);
    assert.match(whole[7], /^20,1/);
    assert.match(flash(twice), /shape of 9 primitives/);
  });

  test("of primitives is a shape with a name where it is one, else it has its box", () => {
    const macro = (...lines) => ["aperture 10", "%AMM10*", ...lines, "%", "%ADD10M10*%"];
    for (const [lines, words] of [
      [["1,1,1.000000,0.000000,0.000000,0*"], "circle 1.00 mm"],
      [["1,1,1.000000,0.100000,0.000000,0*"], "shape of 1 primitive, 1.00 by 1.00 mm"],
      [["21,1,1.000000,0.500000,0.000000,0.000000,0*"], "rectangle 1.00 by 0.50 mm"],
      [["1,1,0.500000,-0.500000,0.000000,0*", "1,1,0.500000,0.500000,0.000000,0*", "20,1,0.500000,-0.500000,0.000000,0.500000,0.000000,0*"],
        "obround 1.50 by 0.50 mm"],
      [["1,1,1.000000,0.000000,0.000000,0*", "1,0,0.400000,0.000000,0.000000,0*"], "circle 1.00 mm, with a hole of 0.40 mm"],
      // a square of 1 mm on its corner
      [["4,1,4,0.707107,0.000000,0.000000,0.707107,-0.707107,0.000000,0.000000,-0.707107,0.707107,0.000000,0*"],
        "rectangle about 1.00 by 1.00 mm, turned by 45°"],
      [["4,1,3,1.000000,0.000000,-0.500000,0.866025,-0.500000,-0.866025,1.000000,0.000000,0*"], "polygon of 3 corners on a circle of 2.00 mm"],
      [["4,1,3,1.000000,0.000000,0.000000,1.000000,0.000000,0.000000,1.000000,0.000000,0*"], "shape of 1 primitive, 1.00 by 1.00 mm"],
      // a bar with larger discs at its ends
      [["1,1,0.800000,-0.500000,0.000000,0*", "1,1,0.800000,0.500000,0.000000,0*", "20,1,0.500000,-0.500000,0.000000,0.500000,0.000000,0*"],
        "shape of 3 primitives, 1.80 by 0.80 mm"],
      // a star of three points: each 60 degrees on, and by turns far and near
      [["4,1,6,1.000000,0.000000,0.250000,0.433013,-0.500000,0.866025,-0.500000,0.000000,-0.500000,-0.866025,0.250000,-0.433013,1.000000,0.000000,0*"],
        "shape of 1 primitive, 1.50 by 1.73205 mm"],
      // an upright bar: 0.2 mm wide from (0, 0) to (0, 1)
      [["20,1,0.200000,0.000000,0.000000,0.000000,1.000000,0*", "1,0,5.000000,0.000000,0.000000,0*", "1,0,1.000000,0.000000,0.500000,0*"],
        "shape of 3 primitives, 0.20 by 1.00 mm"],
    ]) part(lines[0], () => assert.equal(flash(macro(...lines)), `pad, ${words}, at 1.000, -2.000`));
  });

  test("has the name of its macro where its file has one", () => {
    const text = `${HEAD}%AMFreePoly0*\n4,1,3,1,0,0,1,0,0,1,0,0*%\n%ADD11FreePoly0*%\nD11*\nX0Y0D03*\nM02*\n`;
    const entries = ["aperture 11", "%AMM11*", "4,1,3,1.000000,0.000000,0.000000,2.000000,0.000000,0.000000,1.000000,0.000000,0*", "%", "%ADD11M11*%"];
    assert.equal(told(layerOfText(text, entries), 0).head, "pad, FreePoly0, 1.00 by 2.00 mm, at 0.000, 0.000");
    assert.deepEqual(fileSays("gerber", latin1Bytes(text)).macros, new Map([[11, "FreePoly0"]]));
  });

  test("that is not known is not told", () => {
    assert.equal(flash([]), "pad, at 1.000, -2.000 mm");
    for (const line of ["7,0,0,1,1,0.1,0*", "1,1,0.5*", "20,1,0.5,0,0*", "4,1,5,0,0,1,0,0*", "4,1,x,0,0*", "21,1*", "1,1,$1,0,0*", "*", "0*"]) {
      part(line, () => assert.equal(flash(["aperture 10", "%AMM10*", line, "%", "%ADD10M10*%"]), "pad, at 1.000, -2.000 mm"));
    }
  });

  test("that is a block tells its objects and its turn", () => {
    const entries = [...aperture(10, "C,1.000000"), "block 12 2", "  flash 10 0 0 r0 dark", "  flash 10 1000000 0 r0 clear"];
    assert.equal(head("flash 12 5000000 0 m90 dark", entries), "block of 2 objects, mirrored and turned by 90°, at 5.000, 0.000 mm");
    assert.equal(head("flash 12 5000000 0 r0 clear", entries), "block of 2 objects, clear, at 5.000, 0.000 mm");
  });
});

suite("other items", () => {
  const PEN = aperture(10, "C,0.250000");

  test("draws have their pen, their length and their ends", () => {
    assert.equal(head("draw 10 0 0 3000000 4000000 r0 dark", PEN), "track 0.25 mm wide, 5.00 mm long, from 0.000, 0.000 to 3.000, 4.000");
    assert.equal(head("draw 10 0 0 0 0 r0 dark", PEN), "track 0.25 mm wide, of no length, at 0.000, 0.000");
    assert.equal(head("draw 10 0 0 1000000 0 r0 clear", PEN), "draw 0.25 mm wide, 1.00 mm long, clear, from 0.000, 0.000 to 1.000, 0.000");
    assert.equal(head("draw 10 0 0 1000000 0 r90 dark", aperture(10, "R,0.500000X0.250000"), { shows: "drawing" }),
      "draw with a rectangle 0.25 by 0.50 mm, 1.00 mm long, from 0.000, 0.000 to 1.000, 0.000");
  });

  test("arcs have their circle", () => {
    // a whole circle of radius 5: 31.4159.. mm
    assert.equal(head("arc 10 5000000 0 5000000 0 0 0 ccw dark", PEN), "track 0.25 mm wide along a circle of radius 5.00 mm about 0.000, 0.000, "
      + "about 31.416 mm long");
    // from the right down by three quarters: 23.56194.. mm
    assert.equal(head("arc 10 5000000 0 0 5000000 0 0 cw dark", PEN, { shows: "top-silk" }), "draw 0.25 mm wide along an arc of radius 5.00 mm, "
      + "clockwise about 0.000, 0.000, about 23.562 mm long, from 5.000, 0.000 to 0.000, 5.000");
  });

  test("regions have their corners and their box", () => {
    assert.equal(head("region dark 0 0 l 3100000 0 l 3100000 2000000 l 0 2000000 l 0 0"),
      "region with 4 corners, 3.10 by 2.00 mm, from 0.000, 0.000 to 3.100, 2.000");
    assert.equal(head("region clear 0 0 l 3000000 0 l 3000000 0 l 0 2000000"), "region with 3 corners, 3.00 by 2.00 mm, clear, "
      + "from 0.000, 0.000 to 3.000, 2.000");
    // half of a disc over a box: its arc reaches 1 mm above the corners
    assert.equal(head("region dark 0 0 l 2000000 0 l 2000000 1000000 ccw 0 1000000 1000000 1000000 l 0 0"),
      "region with 4 corners and 1 arc, 2.00 by 2.00 mm, from 0.000, 0.000 to 2.000, 2.000");
    assert.equal(head("region dark 2000000 0 cw 2000000 0 0 0"), "region, circle 4.00 mm, at 0.000, 0.000");
    // the circle of an arc from (1, 1) about (0, 0) has the root of 2 as its radius
    assert.equal(head("region dark 1000000 1000000 ccw -1000000 1000000 0 0 l 1000000 1000000"),
      "region with 2 corners and 1 arc, about 2.00 by 0.414 mm, from -1.000, 1.000 to 1.000, 1.414214");
  });

  test("repeats have their copies and their steps", () => {
    assert.equal(head(["repeat 3 2 1000000 500000 1", "  flash 10 0 0 r0 dark"], PEN),
      "repeat of 1 object, 3 columns and 2 rows, at steps of 1.00 mm to the right and 0.50 mm up");
    const one = layer({ items: ["repeat 1 2 0 500000 1", "  flash 10 0 0 r0 dark", "flash 10 0 0 r0 dark"], entries: PEN });
    assert.deepEqual(told(one, 0).rows, [["object", "pad, circle 0.25 mm, at 0.000, 0.000"], ["layer", "top copper"]]);
    assert.equal(told(one, 0).head, "repeat of 1 object, 1 column and 2 rows, at steps of 0.50 mm up");
    assert.equal(told(one, 1).head, "pad, circle 0.25 mm, at 0.000, 0.000");
    assert.equal(told(one, 2), null);
  });

  test("holes tell whether they are plated where something tells it", () => {
    const drill = (words, parts) => head(words, tool(1, 0.8), { kind: "drill", shows: "holes", ...parts });
    assert.equal(drill("hit 1 1000000 0"), "hole 0.80 mm, at 1.000, 0.000");
    assert.equal(drill("hit 1 1000000 0", { shows: "nonplated" }), "hole 0.80 mm, not plated, at 1.000, 0.000");
    assert.equal(drill("hit 1 1000000 0", { shows: "nonplated", attributes: [".FileFunction,Plated,1,2,PTH"] }),
      "hole 0.80 mm, plated, at 1.000, 0.000");
    const says = fileSays("drill", latin1Bytes("M48\n; #@! TF.FileFunction,MixedPlating,1,2\n; #@! TA.AperFunction,NonPlated,NPTH,MechanicalDrill\nT01C0.8\n"
      + "; #@! TD\nT2C1\n%\nM30\n"));
    assert.equal(drill("hit 1 0 0", { says }), "hole 0.80 mm, not plated, at 0.000, 0.000");
    assert.equal(drill("hit 2 0 0", { says }), "hole, at 0.000, 0.000 mm");
    assert.equal(drill("rout 1 0 0"), "hole 0.80 mm, at 0.000, 0.000");
    assert.equal(drill("rout 1 0 0 1000000 0 1000000 2000000"), "rout 0.80 mm wide, 3.00 mm from end to end over 3 points, "
      + "from 0.000, 0.000 to 1.000, 2.000");
    // a layer of holes that is a Gerber file
    assert.equal(head("flash 10 0 0 r0 dark", PEN, { shows: "plated" }), "hole 0.25 mm, plated, at 0.000, 0.000");
    assert.equal(head("draw 10 0 0 1000000 0 r0 dark", PEN, { shows: "plated" }), "slot 0.25 mm wide, 1.25 mm long over all, plated, "
      + "from 0.000, 0.000 to 1.000, 0.000");
  });

  test("are called what their layer and their function make of them", () => {
    const mask = { shows: "top-mask", attributes: [".FilePolarity,Negative"] };
    assert.equal(head("flash 10 0 0 r0 dark", PEN, mask), "opening, circle 0.25 mm, at 0.000, 0.000");
    assert.equal(head("flash 10 0 0 r0 dark", PEN, { shows: "top-mask" }), "flash, circle 0.25 mm, at 0.000, 0.000");
    assert.equal(head("flash 10 0 0 r0 clear", PEN), "flash, circle 0.25 mm, clear, at 0.000, 0.000");
    const text = (name) => layerOfText(`${HEAD}%TA.AperFunction,${name}*%\n%ADD10C,0.25*%\n%TD*%\nD10*\nX0Y0D03*\nX0Y0D02*\nX1000000Y0D01*\nM02*\n`, PEN);
    for (const [name, flashed, drawn, does] of [["FiducialPad,Global", "fiducial", "draw", "fiducial, of the board"],
      ["AntiPad", "antipad", "draw", "antipad"], ["Conductor", "flash", "track", "conductor"],
      ["SMDPad,SMDef", "pad", "draw", "SMD pad, defined by the solder mask"], ["NonConductor", "flash", "draw", "copper that conducts nothing"],
      ["Other,Fantasy", "flash", "draw", "other, Fantasy"], ["constructor", "flash", "draw", "constructor"]]) {
      part(name, () => {
        const [one, other] = [0, 1].map((place) => told(text(name), place));
        assert.equal(one.head, `${flashed}, circle 0.25 mm, at 0.000, 0.000`);
        assert.equal(other.head, `${drawn} 0.25 mm wide, 1.00 mm long, from 0.000, 0.000 to 1.000, 0.000`);
        assert.deepEqual(one.rows.find(([row]) => row === "function"), ["function", does]);
      });
    }
  });
});

suite("attributes", () => {
  const PEN = aperture(10, "C,0.250000"), file = (text) => layerOfText(`${HEAD}%ADD10C,0.25*%\nD10*\n${text}M02*\n`, PEN);
  const rows = (text) => told(file(`${text}X0Y0D03*\n`), 0).rows.filter(([name]) => name !== "aperture" && name !== "layer");

  test("are read with their escapes, and none is made up", () => {
    assert.deepEqual(rows(""), []);
    assert.deepEqual(rows("%TO.N,A\\u002CB*%\n%TO.P,R1,2*%\n"), [["net", "A,B"], ["component", "R1"], ["pin", "2"]]);
    assert.deepEqual(rows("%TO.N,A,B*%\n"), [["nets", "A, B"]]);
    assert.deepEqual(rows("%TO.N,*%\n"), [["net", "none"]]);
    assert.deepEqual(rows("%TO.N,N/C*%\n%TO.P,U1,7*%\n"), [["net", "none, this pad is not connected"], ["component", "U1"], ["pin", "7"]]);
    assert.deepEqual(rows("%TO.C,R3*%\n%TO.CVal,10k \xce\xa9*%\n%TO.CMnt,SMD*%\n%TO.CRot,90*%\n%TOmine,1,2*%\n"),
      [["component", "R3"], ["value", "10k \u03a9"], ["mounting", "on the surface"], ["rotation", "90"], ["mine", "1, 2"]]);
    assert.deepEqual(rows("G04 #@! TO.N,GND*\n"), [["net", "GND"]]);
  });

  test("of a component stand with its pads, wherever the board has them", () => {
    const pads = file("%TO.P,R1,1*%\nX0Y0D03*\n%TO.P,R2,1*%\nX0Y0D03*\n");
    const placed = file("%TO.C,R1*%\n%TO.CVal,47k*%\n%TO.CPkg,0805*%\nX0Y0D03*\n%TD*%\n%SRX2Y1I5.0J0*%\n%TO.C,R2*%\n%TO.CVal,1M*%\nX0Y0D03*\n%SR*%\n");
    const components = componentsOf([pads, placed]);
    assert.deepEqual(itemWords(pads, 0, { unit: "mm", components }).rows.slice(0, 4),
      [["component", "R1"], ["pin", "1"], ["value", "47k"], ["package", "0805"]]);
    assert.deepEqual(itemWords(pads, 1, { unit: "mm", components }).rows.slice(0, 3), [["component", "R2"], ["pin", "1"], ["value", "1M"]]);
  });

  test("of a region's function are its own", () => {
    const region = file("%TA.AperFunction,Conductor*%\n%TO.N,GND*%\nG36*\nX0Y0D02*\nX1000000Y0D01*\nX0Y1000000D01*\nX0Y0D01*\nG37*\n");
    assert.deepEqual(told(region, 0), { head: "region with 3 corners, 1.00 by 1.00 mm, from 0.000, 0.000 to 1.000, 1.000",
      rows: [["net", "GND"], ["function", "conductor"], ["layer", "top copper"]], line: "region dark 0 0 l 1000000 0 l 0 1000000 l 0 0" });
  });
});

// Points of an arc, one next to another, by angles: of a circle of 5 mm their chords are less than 20 nm shorter.
function sampled({ from, to, centre, isClockwise }) {
  const [start, end] = [from, to].map(([x, y]) => Math.atan2(y - centre[1], x - centre[0]));
  let sweep = isClockwise ? start - end : end - start;
  while (sweep <= 1e-12) sweep += 2 * Math.PI;
  const radius = Math.hypot(from[0] - centre[0], from[1] - centre[1]), count = 2000;
  return Array.from({ length: count + 1 }, (_, at) => start + (isClockwise ? -1 : 1) * sweep * at / count)
    .map((angle) => [centre[0] + radius * Math.cos(angle), centre[1] + radius * Math.sin(angle)]);
}

suite("boxes and lengths", () => {
  test("are those of points along the arc", () => {
    // corners of a circle with whole places: 3-4-5 and the axes
    const places = [[5, 0], [4, 3], [3, 4], [0, 5], [-3, 4], [-4, 3], [-5, 0], [-4, -3], [-3, -4], [0, -5], [3, -4], [4, -3]]
      .map(([x, y]) => [x * 1e6 + 7, y * 1e6 - 9]);
    for (const from of places) {
      for (const to of places) {
        for (const isClockwise of [false, true]) {
          const arc = { from, to, centre: [7, -9], isClockwise }, points = sampled(arc), box = boxOf([arc]);
          part(`${from} to ${to} ${isClockwise}`, () => {
            const [xs, ys] = [0, 1].map((axis) => points.map((point) => point[axis]));
            const found = [Math.min(...xs), Math.min(...ys), Math.max(...xs), Math.max(...ys)];
            [box.left, box.low, box.right, box.high].forEach((value, at) => assert.ok(Math.abs(value - found[at]) < 20, `${value} and ${found[at]}`));
            assert.equal(box.isExact, true);
            const long = points.slice(1).reduce((sum, [x, y], at) => sum + Math.hypot(x - points[at][0], y - points[at][1]), 0);
            assert.ok(Math.abs(lengthOf([arc]).nm - long) < 20, `${lengthOf([arc]).nm} and ${long}`);
          });
        }
      }
    }
  });

  test("corners that stand twice count once", () => {
    assert.equal(cornersOfWays(itemOf("region dark 0 0 l 1 0 l 1 0 l 1 1 l 0 0").ways).length, 3);
    assert.equal(cornersOfWays(itemOf("region dark 0 0 l 1 0 l 1 1").ways).length, 3);
    assert.equal(cornersOfWays([]).length, 0);
  });

  test("words that are none of an item are none", () => {
    for (const words of ["", "flash", "flash 10 x y r0 dark", "flash 10 1.5 0 r0 dark", "region dark", "region dark 0 0 l 1", "repeat 1", "polygon 1 2",
      "constructor 1", "draw 10 0 0 1 r0 dark", "rout 1", "arc 10 0 0 1 1 5 cw dark"]) {
      const found = layer({ items: [words] });
      part(words, () => assert.doesNotThrow(() => told(found, 0)));
    }
    assert.equal(itemOf("flash 10 x y r0 dark"), null);
    assert.equal(itemOf("draw 10 0 0 1 r0 dark"), null);
    assert.equal(itemOf("repeat 1"), null);
  });
});

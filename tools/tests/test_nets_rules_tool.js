// tools/nets --rules: places and values on a small board, the exit status, and JSON.

import assert from "node:assert/strict";
import { writeFileSync } from "node:fs";
import { join } from "node:path";
import { suite, test } from "./harness.js";
import { box, draw, drill, flash, gerber, net, write } from "./small_boards.js";
import { newRoom, nets, netsFound } from "./support_nets.js";

// Two pads with holes off their middles, a track of 0.15 mm, a hole without plating, and an outline of 20 by 10 mm.
function board() {
  const room = newRoom();
  write(room, {
    "t.gbr": gerber("Copper,L1,Top", ["C,1.6", "C,0.15"], net("A", flash(10, [3, 3]), draw(11, [3, 3], [12, 3])), net("B", flash(10, [3, 5])), net("A", flash(10, [12, 3]))),
    "b.gbr": gerber("Copper,L2,Bot", ["C,1.6"], net("A", flash(10, [3, 3], [12, 3])), net("B", flash(10, [3, 5]))),
    "o.gbr": gerber("Profile,NP", ["C,0.1"], draw(10, ...box(0, 0, 20, 10), [0, 0])),
    "h.drl": drill("Plated,1,2,PTH", [{ diameter: 1, hits: [[3.2, 3], [3, 5], [12, 3], [12, 3]] }]),
    "n.drl": drill("NonPlated,1,2,NPTH", [{ diameter: 0.8, hits: [[8, 3.6]] }]),
  });
  return room;
}

const told = (room, rule, status = 1) => netsFound([room, "--rule", rule], status).rules.filter(({ rule: name }) => rule.startsWith(name));
const isNear = (value, wanted) => assert.ok(Math.abs(Number(value) - wanted) <= 0.014143, `${value} in place of ${wanted}`);

suite("rules of a house", () => {
  test("each with its place and its value", () => {
    const room = board(), rings = told(room, "ring=0.25");
    assert.deepEqual(rings.map(({ layer, holes: [hole] }) => [layer, hole]).sort(), [["bottom", "plated 0"], ["top", "plated 0"]]);
    for (const { value } of rings) isNear(value, 0.1);
    assert.deepEqual(told(room, "ring=0.05", 0), []);
    for (const { value, x } of told(room, "gap=0.45")) {
      isNear(value, 0.4);
      isNear(x, 3);
    }
    // The track's edge is at 3.075, the hole's rim at 3.2.
    const [hole, ...others] = told(room, "hole-copper=0.2");
    isNear(hole.value, 0.125);
    assert.deepEqual([hole.holes, hole.layer, others.length], [["nonplated 0"], "top", 0]);
    for (const { value } of told(room, "outline=2.5")) isNear(value, 2.2);
    const [doubled] = told(room, "hole-hole=0.2");
    assert.deepEqual([doubled.value, doubled.holes], ["-1.000", ["plated 2", "plated 3"]]);
    const [thin] = told(room, "width=0.2");
    isNear(thin.value, 0.15);
    assert.equal(thin.layer, "top");
  });

  test("a file of rules, and the status", () => {
    const room = board(), path = join(room, "house");
    writeFileSync(path, "# a house\nring 0.05\nwidth 0.1\n");
    assert.match(nets([room, "--rules", path]), /annular ring of 0\.050 mm: kept; thin copper of 0\.100 mm: kept/);
    assert.match(nets([room, "--rules", path, "--rule", "width=0.2"], 1), /width: 0\.1\d+ mm \(within 0\.014143\), less than 0\.200: A at \(.*on top\n[^]*thin copper of 0\.200 mm: 1 less/);
    assert.match(nets([room, "--rule", "width=200um", "--rule", "ring=1mil"], 1), /less than 0\.200: A at .*on top\n[^]*thin copper of 0\.200 mm: 1 less; annular ring of 0\.0254 mm: kept/);
    writeFileSync(path, "side 1\n");
    assert.match(nets([room, "--rules", path], 2), /house: line 1: side is none of ring, gap/);
    assert.match(nets([room, "--rule", "ring"], 2), /ring needs a length in mm/);
  });
});

// tools/nets --rules with files of mask, ink, paste and holes: a board that keeps the rules of docs/rules, what a fault in a file
// gives, and what is not checked.

import assert from "node:assert/strict";
import { join } from "node:path";
import { part, suite, test } from "./harness.js";
import { box, draw, drill, flash, gerber, net, write } from "./small_boards.js";
import { REPOSITORY } from "./support.js";
import { newRoom, nets, netsFound } from "./support_nets.js";

const RULES = join(REPOSITORY, "docs", "rules"), EXACT = 0.014143;
const VIAS = [[3, 3], [15, 3]], PADS = [[7, 6], [11, 6]];

// A copper layer: D10 is a via's pad, D11 another pad, D12 a track.
function copper(layerFunction, ...lines) {
  return gerber(layerFunction, ["C,1.6", "R,1X1", "C,0.2"], ...lines).replace("%ADD10C", "%TA.AperFunction,ViaPad*%\n%ADD10C").replace("%ADD11R", "%TD*%\n%ADD11R");
}

// Nets A and B, a via and a pad of each, and a track of B above the pad of A: 20 by 10 mm.
function board() {
  const [viaA, viaB] = VIAS.map((place) => flash(10, place)), [padA, padB] = PADS.map((place) => flash(11, place));
  return {
    "t.gbr": copper("Copper,L1,Top", net("A", viaA, padA, draw(12, VIAS[0], PADS[0])), net("B", viaB, padB, draw(12, VIAS[1], PADS[1], [11, 6.9], [6, 6.9]))),
    "b.gbr": copper("Copper,L2,Bot", net("A", viaA), net("B", viaB)),
    "tm.gbr": gerber("Soldermask,Top", ["C,1.7", "R,1.1X1.1", "C,0.3"], flash(10, ...VIAS), flash(11, ...PADS)),
    "bm.gbr": gerber("Soldermask,Bot", ["C,1.7", "R,1.1X1.1", "C,0.3"], flash(10, ...VIAS)),
    "ts.gbr": gerber("Legend,Top", ["C,0.15"], draw(10, [5, 8], [13, 8])),
    "bs.gbr": gerber("Legend,Bot", ["C,0.15"], draw(10, [6, 1], [9, 1])),
    "tp.gbr": gerber("Paste,Top", ["R,0.9X0.9"], flash(10, ...PADS)),
    "bp.gbr": gerber("Paste,Bot", ["R,0.9X0.9"]),
    "o.gbr": gerber("Profile,NP", ["C,0.1"], draw(10, ...box(0, 0, 20, 10), [0, 0])),
    "h.drl": drill("Plated,1,2,PTH", [{ diameter: 0.8, hits: VIAS }]),
  };
}

const added = (...lines) => (text) => text.replace("M02*", [...lines, "M02*"].join("\n"));

/**
 * A fault: its file, how it is planted, and what is found: the rule, the layer, its value.
 * @type {[name: string, file: string, plant: (text: string) => string, found: [rule: string, layer: string | null, value: number][]][]}
 */
const FAULTS = [
  ["a narrow web of mask", "tm.gbr", added(flash(12, [7.78, 6])), [["mask-web", "top", 0.08]]],
  ["an opening that bares a track", "tm.gbr", added(draw(12, [7, 6.2], [7, 6.75])), [["mask-bare", "top", -0.1]]],
  ["ink on a pad", "ts.gbr", added(draw(10, [11.2, 5], [11.2, 6])), [["silk-bare", "top", -0.375]]],
  ["paste on mask", "tp.gbr", added(flash(10, [7.2, 6])), [["paste", "top", -0.1]]],
  ["a hole without a pad", "h.drl", (text) => text.replace("M30", "X9.000Y3.000\nM30"), [["hole-pad", "top", 1], ["hole-pad", "bottom", 1]]],
  ["a hit twice", "h.drl", (text) => text.replace("M30", "X3.020Y3.000\nM30"), [["doubled", null, 0.02]]],
];

suite("rules of mask, ink, paste and holes", () => {
  test("a board that keeps them, and faults in its files", () => {
    const clean = board(), room = newRoom();
    write(room, clean);
    const told = nets([room, "--rules", RULES]);
    assert.match(told, /top solder mask: tm\.gbr: open where it is black/);
    assert.doesNotMatch(told, /not checked/);
    assert.deepEqual([netsFound([room, "--rules", RULES]).rules, netsFound([room, "--rules", RULES]).rulesNotChecked], [[], []]);
    for (const [name, file, plant, wanted] of FAULTS) {
      part(name, () => {
        write(room, { ...clean, [file]: plant(clean[file]) });
        const { rules } = netsFound([room, "--rules", RULES], 1);
        assert.deepEqual(rules.map(({ rule, layer }) => [rule, layer]), wanted.map(([rule, layer]) => [rule, layer]));
        rules.forEach(({ value, within }, at) => assert.ok(Math.abs(Number(value) - wanted[at][2]) <= Math.max(EXACT, Number(within)), `${value} in place of ${wanted[at][2]}`));
      });
    }
  });

  test("a pad without its hole, by attributes", () => {
    const room = newRoom(), { rules } = (write(room, { ...board(), "h.drl": drill("Plated,1,2,PTH", [{ diameter: 0.8, hits: [VIAS[0]] }]) }), netsFound([room, "--rule", "pad-hole=0.05"], 1));
    assert.deepEqual(rules.map(({ value, x, y, of }) => [value, x, y, of.length]), [["1.000", "15.000", "3.000", 1]]);
  });

  test("what no file shows is not checked, and is printed", () => {
    const room = newRoom(), { "tm.gbr": mask, "bp.gbr": paste, ...files } = board();
    assert.ok(mask && paste);
    write(room, files);
    const told = nets([room, "--rules", RULES]);
    assert.match(told, /^not checked: mask web on top: no file shows its solder mask$/m);
    assert.match(told, /^not checked: paste and mask on bottom: no file shows its paste$/m);
    assert.match(told, /mask web of 0\.100 mm: kept, as far as it is checked; .*; doubled hits of 0\.050 mm: kept;/);
    assert.deepEqual(netsFound([room, "--rule", "mask-web=0.1"]).rulesNotChecked, [{ rule: "mask-web", side: "top", why: "no file shows its solder mask" }]);
    // A mask that is refused is missing.
    write(room, { "tm.gbr": "%FSLAX46Y46*%\n%MOMM*%\n%TF.FileFunction,Soldermask,Top*%\nX1D09*\nM02*\n" });
    assert.match(nets([room, "--rules", RULES], 2), /tm\.gbr: /);
    assert.match(nets([room, "--rule", "gap=0.1"]), /kept/);
  });
});

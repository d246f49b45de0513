// The rules of docs/rules on a clean board of discs and straight draws: it keeps them all; each planted fault is found with its
// place and its value, and nothing else is.

import assert from "node:assert/strict";
import { readFileSync } from "node:fs";
import { join } from "node:path";
import { Grid } from "../../web/nets/grid.js";
import { netsOf } from "../../web/nets/nets.js";
import { RULES, readRules } from "../../web/nets/rule_table.js";
import { breachesOf } from "../../web/nets/rules.js";
import { runsOf } from "../../web/nets/runs.js";
import { readPbm } from "../../web/bytes/pbm.js";
import { part, suite, test } from "./harness.js";
import { nmOf, paintedBy } from "./strokes.js";
import { REPOSITORY } from "./support.js";

// Lengths are in pixels of 0.01 mm.
const SIDE = 300, PITCH = 10_000, DIAGONAL = Math.SQRT2;
// Along a rim the depth changes little: the deepest pixel may lie so far from the deepest place.
const ALONG = 8;
const GRID = new Grid({ x: 0, y: 0, pitch: PITCH, width: SIDE, height: SIDE });
const nm = nmOf(SIDE, PITCH), pictureOf = (strokes) => runsOf(readPbm(paintedBy(strokes, SIDE)));
const { limits: LIMITS, refusals } = readRules(readFileSync(join(REPOSITORY, "docs", "rules"), "utf8"));
const stroke = (x0, y0, x1, y1, radius) => ({ line: [[x0, y0], [x1, y1]], radius }), disc = (x, y, radius) => stroke(x, y, x, y, radius);

// Two vias, of A and of B, with a pad each, whose tracks lead to them, and one that ends next to A's pad. A dot of ink lies in a
// via's hole, where no copper is.
function clean() {
  const vias = [disc(60, 60, 40), disc(240, 60, 40)], pads = [disc(90, 180, 30), disc(210, 180, 30)];
  return {
    top: [...vias, ...pads, stroke(60, 60, 90, 180, 10), stroke(240, 60, 210, 180, 10), stroke(210, 180, 150, 180, 10)], bottom: vias.slice(),
    openings: [disc(60, 60, 44), disc(240, 60, 44), disc(90, 180, 34), disc(210, 180, 34)], below: [disc(60, 60, 44), disc(240, 60, 44)],
    ink: [stroke(40, 260, 260, 260, 8), disc(60, 60, 3)], paste: [disc(90, 180, 28), disc(210, 180, 28)], holes: [disc(60, 60, 20), disc(240, 60, 20)],
  };
}

function breaches({ top, bottom, openings, below, ink, paste, holes }) {
  const spans = [{ from: 0, to: 1, runs: pictureOf(holes) }], centre = ({ line: [place] }) => [nm(place)];
  const vias = [[60, 60], [240, 60]].map((place, at) => ({ net: "AB"[at], name: `V-${at}`, isPin: false, isDrilled: true, isThrough: true, source: "", x: nm(place)[0],
    y: nm(place)[1], layers: [0, 1], reach: 0 }));
  const side = (name, layer, open, pads, more) => ({ name, layer, openings: pictureOf(open), ink: null, paste: null, pads: pads.map(centre), ...more });
  return breachesOf({ nets: netsOf([pictureOf(top), pictureOf(bottom)], spans), grid: GRID, spans, points: vias,
    holes: holes.map(({ line, radius }, at) => ({ line: [nm(line[0])], radius: radius * PITCH, isPlated: true, layer: 0, source: `hole ${at}` })),
    outline: [[[-20, -20], [320, -20], [320, 320], [-20, 320], [-20, -20]].map(nm)],
    sides: [side("top", 0, openings, top.slice(0, 4), { ink: pictureOf(ink), paste: pictureOf(paste) }), side("bottom", 1, below, bottom, {})] }, LIMITS);
}

/**
 * A fault, what is found of it: the rule, the layer, the value, and where an end of the measure is; in pixels.
 * @type {[name: string, plant: (board: ReturnType<typeof clean>) => void, found: [rule: string, layer: number | null, value: number, x: number, y: number][]][]}
 */
const FAULTS = [
  ["a narrow web of mask", (board) => board.openings.push(disc(135, 180, 6)), [["mask-web", 0, 5, 124, 180]]],
  ["an opening that is too near to a track", (board) => board.openings.splice(2, 1, disc(90, 180, 47)), [["mask-bare", 0, 3, 137, 180]]],
  ["an opening that bares a track", (board) => board.openings.splice(2, 1, disc(90, 180, 56)), [["mask-bare", 0, -6, 140, 180]]],
  ["one opening for two pads, which is no fault", (board) => board.openings.splice(2, 2, stroke(90, 180, 210, 180, 34)), []],
  ["ink that is too near to a pad", (board) => board.ink.push(stroke(200, 226, 220, 226, 8)), [["silk-bare", 0, 8, 210, 218]]],
  ["ink on a pad", (board) => board.ink.push(stroke(200, 205, 220, 205, 8)), [["silk-bare", 0, -13, 210, 197]]],
  ["paste off its opening", (board) => board.paste.splice(0, 1, disc(102, 180, 28)), [["paste", 0, -6, 130, 180]]],
  ["paste where no mask is open", (board) => board.paste.push(disc(150, 250, 20)), [["paste", 0, -74.2, 150, 270]]],
  ["a hole without a pad", (board) => board.holes.push(disc(150, 60, 15)), [["hole-pad", 0, 35, 150, 60], ["hole-pad", 1, 35, 150, 60]]],
  ["a hole without a pad on one side", (board) => board.bottom.pop(), [["hole-pad", 1, 100, 240, 60]]],
  ["a pad without a hole", (board) => board.holes.pop(), [["pad-hole", 0, 100, 240, 60]]],
  ["a hit twice", (board) => board.holes.push(disc(62, 60, 20)), [["doubled", null, 2, 60, 60]]],
  ["holes that overlap", (board) => board.holes.push(disc(79, 60, 5)), [["overlap", null, 6, 60, 60]]],
];

suite("planted faults", () => {
  test("a clean board keeps all rules", () => {
    assert.deepEqual([refusals, [...LIMITS.keys()].sort()], [[], [...RULES.keys()].sort()]);
    assert.deepEqual(breaches(clean()), []);
  });

  test("each is found, and nothing else", () => {
    for (const [name, plant, wanted] of FAULTS) {
      part(name, () => {
        const board = clean();
        plant(board);
        const found = breaches(board).map(({ rule, layer, value, from, to }) => ({ rule, layer, value: value / PITCH,
          ends: [from, ...(to ? [to] : [])].map(({ x, y }) => [GRID.columnOf(x), GRID.rowOf(y)]) }));
        assert.deepEqual(found.map(({ rule, layer }) => [rule, layer]), wanted.map(([rule, layer]) => [rule, layer]));
        found.forEach(({ value, ends }, at) => {
          const [, , length, column, row] = wanted[at];
          assert.ok(Math.abs(value - length) <= DIAGONAL, `${value} in place of ${length}`);
          assert.ok(ends.some(([x, y]) => Math.hypot(x - column, y - row) <= ALONG), `${JSON.stringify(ends)} in place of (${column}, ${row})`);
        });
      });
    }
  });
});

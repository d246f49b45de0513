// tools/lib/nets_drawn.js: the picture of a finding has its measure from edge to edge, and its value in letters.

import assert from "node:assert/strict";
import { readPbm } from "../../web/bytes/pbm.js";
import { Grid } from "../../web/nets/grid.js";
import { netsOf } from "../../web/nets/nets.js";
import { breachesOf } from "../../web/nets/rules.js";
import { runsOf } from "../../web/nets/runs.js";
import { Drawn, MARK, SIDE } from "../lib/nets_drawn.js";
import { suite, test } from "./harness.js";
import { paintedBy } from "./strokes.js";

const WIDE = 1000, PITCH = 10_000;
const GRID = new Grid({ x: 0, y: 0, pitch: PITCH, width: WIDE, height: WIDE });
const disc = (x, y, radius) => ({ line: [[x, y], [x, y]], radius });

function drawnOf(strokes, rule, limit) {
  const nets = netsOf([runsOf(readPbm(paintedBy(strokes, WIDE)))]), checked = { nets, grid: GRID, holes: [], spans: [], outline: [] };
  const [{ from, to, measure, value, nets: own, layer }] = breachesOf(checked, new Map([[rule, limit]]));
  /** @type {import("../lib/nets_drawn.js").Shown["places"]} */
  const places = [{ ...from, layer }, ...to ? [{ ...to, layer }] : []];
  return { measure, value, places, own, drawn: new Drawn({ nets, grid: GRID }, { what: rule, places, nets: own, measure, value }) };
}

const marked = (drawn) => [...drawn.pixels.keys()].filter((at) => drawn.pixels[at] === MARK).map((at) => [at % SIDE, Math.floor(at / SIDE)]);
const LETTER = 5;

suite("pictures of findings", () => {
  test("a gap is drawn from edge to edge, three times as large where it is small, with its value", () => {
    const { drawn, value } = drawnOf([disc(480, 500, 15), disc(520, 500, 15)], "gap", 200_000), [first, second] = [2, 3];
    assert.equal(drawn.times, 3);
    // The line lies in the row of its middle, from one disc to the other.
    const row = Math.floor((500.5 - drawn.top) * 3), line = marked(drawn).filter(([, y]) => y === row).map(([x]) => x);
    assert.ok(Math.abs(line.length - value / PITCH * 3) <= 5, `${line.length} pixels for ${value} nm`);
    const colourAt = (x) => drawn.pixels[row * SIDE + x], ends = [Math.min(...line), Math.max(...line)];
    assert.deepEqual([colourAt(ends[0] - 4), colourAt(ends[1] + 4)].sort(), [first, second]);
    const letters = [...drawn.pixels.keys()].filter((at) => drawn.pixels[at] === LETTER);
    assert.ok(letters.length > 100 && letters.every((at) => Math.floor(at / SIDE) < row - 10), `${letters.length} pixels of letters`);
  });

  test("thin copper is drawn across, and what has no measure has a cross", () => {
    const strokes = [disc(300, 500, 60), disc(700, 500, 60), { line: [[300, 500], [700, 500]], radius: 5 }];
    const { drawn, value, places } = drawnOf(strokes, "width", 150_000), columns = marked(drawn).map(([x]) => x);
    const middle = drawn.seen(places[0]), upright = marked(drawn).filter(([x]) => Math.abs(x - middle.x) <= 1).map(([, y]) => y);
    assert.ok(Math.abs(Math.max(...upright) - Math.min(...upright) - value / PITCH * drawn.times) <= 4);
    assert.ok(columns.length > 20);
    const nets = netsOf([runsOf(readPbm(paintedBy([disc(500, 500, 20)], WIDE)))]), bare = { layer: 0, ...GRID.placeOf(100, 100) };
    const cross = new Drawn({ nets, grid: GRID }, { what: "no-copper", places: [bare], nets: [], measure: null, value: null });
    assert.equal(marked(cross).length, 72);
  });

  test("one that is long is drawn smaller, all of it", () => {
    const { drawn, measure } = drawnOf([disc(60, 500, 40), disc(940, 500, 40)], "gap", 9_000_000);
    assert.ok(drawn.step > 1);
    for (const place of measure) {
      const { x, y } = drawn.seen(place);
      assert.ok(x > 0 && x < SIDE && y > 0 && y < SIDE);
    }
  });
});

// web/nets: what an open of a plane and forgotten holes cost, and how much is told of them.

import assert from "node:assert/strict";
import { MOST_FULL, compareNets } from "../../web/nets/compare.js";
import { Grid } from "../../web/nets/grid.js";
import { netsOf } from "../../web/nets/nets.js";
import { RuleCheck } from "../../web/nets/rules.js";
import { runsOf } from "../../web/nets/runs.js";
import { suite, test } from "./harness.js";

// A white picture of whole bytes a row, and boxes in it.
class Drawn {
  constructor(side) {
    this.side = side;
    this.picture = { width: side, height: side, stride: side / 8, bits: new Uint8Array(side / 8 * side) };
  }

  fill(left, top, right, bottom, isBlack = true) {
    const { bits, stride } = this.picture;
    for (let row = top; row < bottom; row++) {
      for (let column = left; column < right; column++) {
        const at = row * stride + (column >> 3), bit = 0x80 >> (column & 7);
        bits[at] = isBlack ? bits[at] | bit : bits[at] & ~bit;
      }
    }
  }
}

const gridOf = (side) => new Grid({ x: 0, y: 0, pitch: 10_000, width: side, height: side });
const pointOf = (grid, net, column, row, layer) => ({ net, name: `${net}-${column}`, isPin: true, source: "", ...grid.placeOf(column, row),
  layers: [layer], isThrough: false, reach: 0 });

suite("times", () => {
  test("an open of a plane with many antipads", () => {
    const side = 4000, top = new Drawn(side), grid = gridOf(side);
    top.fill(10, 10, side - 10, side - 10);
    for (let row = 100; row < side - 100; row += 16) for (let column = 100; column < side - 100; column += 16) top.fill(column, row, column + 6, row + 6, false);
    top.fill(2000, 2000, 2400, 2400, false);
    top.fill(2150, 2150, 2250, 2250);
    const nets = netsOf([runsOf(top.picture)]), start = process.cpuUsage();
    const { opens: [{ parts, gaps }] } = compareNets(nets, grid, [pointOf(grid, "GND", 50, 50, 0), pointOf(grid, "GND", 2200, 2200, 0)]);
    const { user, system } = process.cpuUsage(start);
    assert.deepEqual([parts.length, gaps.length, gaps[0].distance], [2, 1, 151 * 10_000]);
    assert.ok(user + system < 2_500_000, `${user + system} microseconds`);
  });

  test("forgotten holes: some opens with their places, and all of them", () => {
    const side = 2000, layers = [new Drawn(side), new Drawn(side)], grid = gridOf(side), points = [];
    for (let row = 0; row < side; row += 40) {
      for (let column = 0; column < side; column += 40) {
        layers.forEach((layer, at) => {
          layer.fill(column, row, column + 20, row + 20);
          points.push(pointOf(grid, `N${row}-${column}`, column + 10, row + 10, at));
        });
      }
    }
    const { opens } = compareNets(netsOf(layers.map(({ picture }) => runsOf(picture))), grid, points);
    assert.equal(opens.length, 2500);
    assert.deepEqual(opens.map(({ gaps }) => gaps.length).filter((count) => count > 0), Array(MOST_FULL).fill(1));
  });

  test("the long rules are in steps of a few rows or places, so that a person may stop", () => {
    // Tracks along y, an opening with two sides that bend in at every few pixels, ink and paste next to them.
    const side = 1024, [copper, mask, ink, paste] = Array.from({ length: 4 }, () => new Drawn(side)), grid = gridOf(side), bands = side / 64;
    for (let column = 16; column < side - 16; column += 32) {
      copper.fill(column, 16, column + 15, side - 16);
      for (let row = 32; row < side - 32; row += 32) {
        mask.fill(column - 2, row, column + 18, row + 12);
        mask.fill(column, row + 12, column + 4, row + 16);
        ink.fill(column + 2, row + 14, column + 10, row + 16);
        paste.fill(column, row + 2, column + 14, row + 10);
      }
    }
    const [openings, drawn, pasted] = [mask, ink, paste].map(({ picture }) => runsOf(picture)), nets = netsOf([runsOf(copper.picture)]);
    const check = new RuleCheck({ nets, grid, holes: [], spans: [], outline: [], points: [],
      sides: [{ name: "top", layer: 0, openings, ink: drawn, paste: pasted, pads: [] }] });
    for (const rule of ["gap", "width", "mask-web", "mask-bare", "silk-bare", "paste"]) {
      const parts = [...check.parts(rule, 180_000)];
      assert.ok(parts.length >= bands, `${rule}: ${parts.length} parts`);
      assert.ok(parts.flat().length, `${rule}: nothing is found`);
    }
  });
});

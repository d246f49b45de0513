// web/nets/alignment.js: how a netlist lies on the pads of a board.

import assert from "node:assert/strict";
import { aligned, alignmentOf, isEnough } from "../../web/nets/alignment.js";
import { INCHES, MILLIMETRES } from "../../web/nets/ipc.js";
import { part, suite, test } from "./harness.js";
import { chances } from "./pictures.js";

/**
 * A netlist of points at random on a grid, in one of the units.
 * @returns {*} without what is not asked of it
 */
function randomNetlist(chance, { nm, words }) {
  const points = Array.from({ length: 40 + Math.floor(chance() * 160) }, () => ({ kind: "through", x: Math.floor(chance() * 400) * 250 * nm,
    y: Math.floor(chance() * 300) * 250 * nm }));
  return { points, nm, unit: words, isUnitTold: true, leftOut: new Map() };
}

const WAYS = [1, MILLIMETRES.nm / INCHES.nm].flatMap((scale) => [false, true].flatMap((isMirrored) => [0, 1, 2, 3].map((turn) => (
  { scale, isMirrored, turn, x: 0, y: 0, matched: 0, count: 0 }))));

suite("how a netlist lies on the board", () => {
  test("shifted, mirrored, turned, in the other unit, with some pads missing", () => {
    const chance = chances(356);
    for (const way of WAYS) {
      for (const shift of [{ x: 0, y: 0 }, { x: 1_000_000, y: 0 }, { x: -37_123_456, y: 81_000_001 }]) {
        part(`scale ${way.scale}, ${way.isMirrored ? "mirrored, " : ""}turn ${way.turn}, shift ${shift.x} ${shift.y}`, () => {
          const netlist = randomNetlist(chance, INCHES), wanted = { ...way, ...shift };
          // One in twenty of the pads is missing, and there are other pads and vias.
          const centres = netlist.points.filter((_, at) => at % 20 !== 7).map((point) => aligned(wanted, point));
          const others = Array.from({ length: 200 }, () => aligned(wanted, { x: chance() * 254e6, y: chance() * 190e6 }));
          const found = alignmentOf(netlist, [...centres, ...others]);
          assert.ok(isEnough(found), `${found.matched} of ${found.count}`);
          for (const point of netlist.points) {
            const [one, other] = [aligned(found, point), aligned(wanted, point)];
            assert.ok(Math.hypot(one.x - other.x, one.y - other.y) < 2, `${JSON.stringify(one)} in place of ${JSON.stringify(other)}`);
          }
        });
      }
    }
  });

  test("the netlist of another board lies on it in no way", () => {
    const chance = chances(17);
    for (let number = 0; number < 20; number++) {
      const centres = Array.from({ length: 300 }, () => ({ x: chance() * 254e6, y: chance() * 190e6 }));
      const found = alignmentOf(randomNetlist(chance, MILLIMETRES), centres);
      assert.ok(!isEnough(found), `${found.matched} of ${found.count}`);
    }
  });
});

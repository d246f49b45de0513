// web/nets/outline.js: the closed lines of an outline, and that no way by edges leads across their pixels.

import assert from "node:assert/strict";
import { flatRows, runsOfFlat, difference } from "../../web/nets/discs.js";
import { Grid } from "../../web/nets/grid.js";
import { netsOf } from "../../web/nets/nets.js";
import { closedLines, linesOfItem } from "../../web/nets/outline.js";
import { pixelsOfLines } from "../../web/nets/outline_pixels.js";
import { runsOf } from "../../web/nets/runs.js";
import { readPbm } from "../../web/bytes/pbm.js";
import { part, suite, test } from "./harness.js";
import { chances, pbm } from "./pictures.js";

const SIDE = 400, PITCH = 10_000, GRID = new Grid({ x: 0, y: 0, pitch: PITCH, width: SIDE, height: SIDE });

// How many pieces a whole black picture falls in when it is cut along the closed lines of items.
function piecesOf(items) {
  const { closed, open } = closedLines(items.flatMap(linesOfItem)), black = flatRows(runsOf(readPbm(pbm(SIDE, SIDE, () => true))));
  return { pieces: netsOf([runsOfFlat(difference(black, pixelsOfLines(closed, GRID)), SIDE)]).count, open };
}

const draw = (from, to) => `draw 10 ${from.join(" ")} ${to.join(" ")} r0 dark`;

suite("outlines", () => {
  test("random polygons cut inside from outside, and lines that are not closed cut nothing", () => {
    const chance = chances(8);
    for (let number = 0; number < 200; number++) {
      part(`polygon ${number}`, () => {
        const count = 3 + Math.floor(chance() * 9), turn = chance() * 7;
        const corners = Array.from({ length: count }, (_, at) => {
          const angle = turn + at * 2 * Math.PI / count, radius = (0.4 + 0.5 * chance()) * SIDE / 2 * PITCH;
          return [Math.cos(angle), Math.sin(angle)].map((part) => Math.round(part * radius + SIDE / 2 * PITCH));
        });
        // Ends are off by some micrometres, as some programs write them.
        const sides = corners.map((corner, at) => draw(corner.map((place) => place + Math.floor(chance() * 4000)), corners[(at + 1) % count]));
        assert.deepEqual(piecesOf(sides), { pieces: 2, open: 0 });
        assert.deepEqual(piecesOf(sides.slice(1)), { pieces: 1, open: count - 1 });
      });
    }
  });

  test("circles, arcs and regions", () => {
    const circle = "arc 10 3000000 2000000 3000000 2000000 2000000 2000000 ccw dark";
    assert.deepEqual(piecesOf([circle]), { pieces: 2, open: 0 });
    const stadium = [draw([1000000, 1000000], [3000000, 1000000]), "arc 10 3000000 1000000 3000000 2000000 3000000 1500000 ccw dark",
      draw([3000000, 2000000], [1000000, 2000000]), "arc 10 1000000 2000000 1000000 1000000 1000000 1500000 ccw dark"];
    assert.deepEqual(piecesOf(stadium), { pieces: 2, open: 0 });
    assert.deepEqual(piecesOf(stadium.slice(1)), { pieces: 1, open: 3 });
    assert.deepEqual(piecesOf(["region dark 500000 500000 l 3500000 500000 ccw 500000 500000 2000000 500000"]), { pieces: 2, open: 0 });
    // A tail of a closed line cuts nothing.
    assert.deepEqual(piecesOf([circle, draw([3000000, 2000000], [3900000, 2000000])]), { pieces: 2, open: 1 });
  });
});

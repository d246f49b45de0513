// Copper's share beside a count of pixels, and what --twice says of a short that moves.

import assert from "node:assert/strict";
import { join } from "node:path";
import { runsOf } from "../../web/nets/runs.js";
import { shareOf } from "../../web/nets/shares.js";
import { readPbm } from "../../web/bytes/pbm.js";
import { part, suite, test } from "./harness.js";
import { chances, pbm } from "./pictures.js";
import { REPOSITORY } from "./support.js";
import { nets, netsFound } from "./support_nets.js";

suite("copper's share", () => {
  test("of random pictures", () => {
    const chance = chances(10);
    for (let number = 0; number < 100; number++) {
      part(`picture ${number}`, () => {
        const below = (count) => Math.floor(chance() * count), width = 20 + below(90), height = 20 + below(160), density = chance();
        const bits = Array.from({ length: width * height }, () => chance() < density), side = 5 + below(40);
        const box = { left: below(10), top: below(10), right: width - below(8), bottom: height - below(8) };
        const { all, rows } = shareOf(runsOf(readPbm(pbm(width, height, (column, row) => bits[row * width + column]))), box, side);
        const count = (left, top, right, bottom) => {
          let black = 0;
          for (let row = top; row < bottom; row++) for (let column = left; column < right; column++) black += bits[row * width + column] ? 1 : 0;
          return black / ((right - left) * (bottom - top));
        };
        assert.ok(Math.abs(all - count(box.left, box.top, box.right, box.bottom)) < 1e-9);
        rows.forEach((ofRow, row) => ofRow.forEach((share, column) => {
          const left = box.left + column * side, top = box.top + row * side;
          assert.ok(Math.abs(share - count(left, top, Math.min(box.right, left + side), Math.min(box.bottom, top + side))) < 1e-9);
        }));
        assert.deepEqual([rows.length, rows[0].length], [Math.ceil((box.bottom - box.top) / side), Math.ceil((box.right - box.left) / side)]);
      });
    }
  });

  test("of a board, by its outline", () => {
    const { copperShare: [top, bottom] } = netsFound([join(REPOSITORY, "examples", "kicad")]);
    assert.deepEqual([top.layer, top.rows.length, top.rows[0].length, bottom.layer], ["top", 2, 3, "bottom"]);
    assert.ok(bottom.all > 0.8 && bottom.all < 0.92 && top.all < 0.1);
    assert.match(nets([join(REPOSITORY, "examples", "kicad"), "--copper"]), /copper's share of bottom: 8\d\.\d %; by squares of 10 mm/);
  });
});

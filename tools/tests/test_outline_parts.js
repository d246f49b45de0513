// web/materials/outline.js: what lies within an outline, in windows that have a part of it, next to the same pixels of the whole.

import assert from "node:assert/strict";
import { cropped } from "../../web/materials/bits.js";
import { drawLines } from "../../web/materials/line_pixels.js";
import { loopsOf } from "../../web/materials/loops.js";
import { Outline } from "../../web/materials/outline.js";
import { outlineLines } from "../../web/materials/outline_lines.js";
import { white } from "../../web/materials/bits.js";
import { closedLines, linesOfItem } from "../../web/nets/outline.js";
import { Grid } from "../../web/nets/grid.js";
import { pixelsOfLines } from "../../web/nets/outline_pixels.js";
import { part, suite, test } from "./harness.js";
import { chances } from "./pictures.js";

const draw = ([x0, y0], [x1, y1]) => `draw 10 ${x0} ${y0} ${x1} ${y1} r0 dark`;
const around = (places) => places.map((place, at) => draw(place, places[(at + 1) % places.length]));
const box = (left, low, right, high) => around([[left, low], [right, low], [right, high], [left, high]]);
const circle = (x, y, radius) => [[x + radius, x - radius], [x - radius, x + radius]]
  .map(([from, to]) => `arc 10 ${from} ${y} ${to} ${y} ${x} ${y} ccw dark`);

const letters = ({ width, height, stride, words }) => Array.from({ length: height }, (_, row) => Array.from({ length: width }, (__, column) => {
  return words[row * stride + (column >> 5)] >>> (31 - (column & 31)) & 1 ? "#" : ".";
}).join(""));

// A board of random corners, with cutouts, islands in these, boxes that share a side, ones that cross and ones that touch in a corner.
function randomOutline(chance) {
  const whole = (from, to) => from + Math.round(chance() * (to - from)), MM = 1e6, count = whole(3, 9), items = [];
  const middle = [whole(-50 * MM, 50 * MM), whole(-50 * MM, 50 * MM)], at = (x, y) => [middle[0] + x * MM, middle[1] + y * MM];
  items.push(...around(Array.from({ length: count }, (_, place) => {
    const angle = 2 * Math.PI * place / count, far = whole(30 * MM, 40 * MM);
    return [middle[0] + Math.round(far * Math.cos(angle)), middle[1] + Math.round(far * Math.sin(angle))];
  })));
  const boxAt = (x, y, side) => box(...at(x, y), ...at(x + side, y + side));
  if (chance() < 0.5) items.push(...circle(...at(0, 0), whole(2 * MM, 6 * MM)));
  if (chance() < 0.5) items.push(...boxAt(7, 7, 5));
  if (chance() < 0.5) items.push(...boxAt(8, 8, 3));
  if (chance() < 0.3) items.push(...boxAt(12, 7, 3));
  if (chance() < 0.3) items.push(...boxAt(-12, -3, 4), ...boxAt(-10, -1, 4));
  if (chance() < 0.3) items.push(...boxAt(-9, -14, 3), ...boxAt(-6, -11, 3));
  return items;
}

// The window around an outline at a pitch, whose pixels begin anywhere.
function windowOf({ left, low, right, high }, pitch, chance) {
  const [x, y] = [left, low].map((edge) => edge - 3 * pitch - Math.floor(chance() * pitch));
  return { x, y, pitch, width: Math.ceil((right - x) / pitch) + 3, height: Math.ceil((high - y) / pitch) + 3 };
}

// A window that has a part of the pixels of another one.
function partOf({ x, y, pitch, width, height }, chance) {
  const [wide, high] = [width, height].map((all) => 1 + Math.floor(chance() * Math.min(all / 2, 120)));
  const [column, row] = [Math.floor(chance() * (width - wide)), Math.floor(chance() * (height - high))];
  return { place: { column, row, width: wide, height: high },
    window: { x: x + column * pitch, y: y + (height - row - high) * pitch, pitch, width: wide, height: high } };
}

suite("parts of an outline", () => {
  test("have the pixels that the whole has there", () => {
    const seeds = Array.from({ length: Number(process.env.BOARDS ?? 40) }, (_, at) => at + Number(process.env.SEED ?? 1));
    let edges = 0;
    for (const seed of seeds) {
      part(`outline ${seed}`, () => {
        const chance = chances(seed), outline = Outline.of(randomOutline(chance)), pitch = [50_000, 100_000, 33_333][seed % 3];
        const all = windowOf(outline.box, pitch, chance), whole = outline.within(all);
        for (let turn = 0; turn < 60; turn++) {
          const { place, window } = partOf(all, chance), wanted = letters(cropped(whole, place)), found = letters(outline.within(window));
          assert.deepEqual(found, wanted, JSON.stringify(window));
          edges += Number(new Set(wanted.join("")).size === 2);
        }
      });
    }
    assert.ok(edges > 5 * seeds.length, `${edges} parts have an edge`);
  });

  test("lie where the lines have them at a pitch of 2 nm, on the two sides of an edge and of a cutout", () => {
    const outline = Outline.of([...box(0, 0, 80_000_000, 60_000_000), ...circle(40_000_000, 30_000_000, 5_000_001)]);
    const across = (x, y) => letters(outline.within({ x: x - 20, y: y - 10, pitch: 2, width: 20, height: 10 }))[5];
    assert.equal(across(0, 30_000_000), `${".".repeat(10)}${"#".repeat(10)}`);
    assert.equal(across(80_000_000, 30_000_000), `${"#".repeat(11)}${".".repeat(9)}`);
    assert.equal(across(45_000_001, 30_000_000), `${".".repeat(10)}${"#".repeat(10)}`);
    assert.equal(across(10_000_000, 30_000_000), "#".repeat(20));
    assert.equal(across(40_000_000, 30_000_000), ".".repeat(20));
    assert.equal(across(-10_000_000, 30_000_000), ".".repeat(20));
  });

  test("lines that touch are one: a side that two boxes share, boxes that cross, a line that ends on another", () => {
    const count = (items) => loopsOf(outlineLines(items).closed).length;
    assert.equal(count([...box(0, 0, 1e6, 1e6), ...box(1e6, 0, 2e6, 1e6)]), 1);
    assert.equal(count([...box(0, 0, 1e6, 1e6), ...box(5e5, 5e5, 2e6, 2e6)]), 1);
    assert.equal(count([...box(0, 0, 4e6, 4e6), ...box(1e6, 1e6, 2e6, 2e6)]), 2);
    assert.equal(count([...box(0, 0, 4e6, 4e6), ...box(1e6, 4e6, 2e6, 5e6)]), 1);
    // (a line that is drawn twice encloses nothing)
    assert.equal(count([draw([0, 0], [1e6, 0]), draw([0, 0], [1e6, 0])]), 0);
  });

  test("an outline with an open line, a flash or clear items is known by its picture alone", () => {
    assert.ok(Outline.of(box(0, 0, 1e6, 1e6)));
    for (const more of [draw([0, 0], [5e5, 5e5]), "flash 10 0 0 r0 dark", draw([0, 0], [1e6, 0]).replace("dark", "clear")]) {
      assert.equal(Outline.of([...box(0, 0, 1e6, 1e6), more]), null, more);
    }
    assert.equal(Outline.of(box(0, 0, 1e6, 1e6).slice(1)), null);
    assert.equal(Outline.of([]), null);
  });

  test("the pixels of lines are those that the nets take, in a part of them too", () => {
    const chance = chances(5), whole = (most) => Math.round((chance() - 0.5) * most);
    for (let turn = 0; turn < 50; turn++) {
      const items = around(Array.from({ length: 5 }, () => [whole(4e6), whole(4e6)])), { closed } = closedLines(items.flatMap(linesOfItem));
      const window = { x: -1_000_000 + whole(1e5), y: -1_000_000 + whole(1e5), pitch: 20_000, width: 100, height: 90 }, grid = new Grid(window);
      const made = white(100, 90), { offsets, starts, ends } = pixelsOfLines(closed, grid);
      drawLines(made, closed, grid);
      const plain = Array.from({ length: 90 }, () => ".".repeat(100).split(""));
      plain.forEach((row, at) => {
        for (let run = offsets[at]; run < offsets[at + 1]; run++) row.fill("#", starts[run], ends[run]);
      });
      assert.deepEqual(letters(made), plain.map((row) => row.join("")));
    }
  });
});

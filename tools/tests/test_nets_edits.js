// web/nets/desk.js: what an edit joins and cuts, beside a comparison of all pixels before and after it.

import assert from "node:assert/strict";
import { Desk } from "../../web/nets/desk.js";
import { flooded } from "./flood.js";
import { part, suite, test } from "./harness.js";
import { chances } from "./pictures.js";

const PITCH = 1000;

// A desk of random bars, and what else the tests need of it.
function randomDesk(chance) {
  const below = (count) => Math.floor(chance() * count), width = 20 + below(60), height = 70 + below(120), count = 1 + below(3);
  const layers = Array.from({ length: count }, (_, at) => ({ name: `copper ${at + 1}`, passes: null }));
  if (chance() < 0.7) layers.push({ name: "holes", passes: [0, count - 1] });
  const desk = new Desk({ x: 0, y: 0, pitch: PITCH, width, height }, layers);
  layers.forEach(({ passes }, layer) => {
    const across = 3 + below(9), down = 3 + below(9);
    for (let row = 0; row < height; row++) {
      for (let column = 0; column < width; column++) {
        const isBar = !passes && (column % across === 0 || (row % down === 0 && chance() < 0.8));
        if (isBar ? chance() < 0.95 : chance() < (passes ? 0.01 : 0.02)) flip(desk, layer, column, row);
      }
    }
    desk.changed(layer, 0, height - 1);
  });
  assert.equal(desk.settle(), null);
  return desk;
}

function flip({ pictures }, layer, column, row) {
  const { bits, stride } = pictures[layer];
  bits[row * stride + (column >> 3)] ^= 0x80 >> (column & 7);
}

// A box of a layer becomes black, or white, or other.
function edit(desk, chance) {
  const below = (count) => Math.floor(chance() * count), { width, height } = desk.grid, layer = below(desk.layers.length);
  const left = below(width), top = below(height), right = Math.min(width, left + 1 + below(8)), kind = below(3);
  const bottom = Math.min(height, top + 1 + below(8)), { bits, stride } = desk.pictures[layer];
  for (let row = top; row < bottom; row++) {
    for (let column = left; column < right; column++) {
      const isBlack = (bits[row * stride + (column >> 3)] >> (7 - (column & 7)) & 1) === 1;
      if (kind === 2 ? chance() < 0.5 : isBlack !== (kind === 0)) flip(desk, layer, column, row);
    }
  }
  desk.changed(layer, top, bottom - 1);
}

function floodOf(desk) {
  const count = desk.copperCount, pictures = desk.pictures.map((picture) => ({ ...picture, bits: picture.bits.slice() }));
  return { pictures, ...flooded(pictures.slice(0, count), desk.layers.slice(count).map(({ passes: [from, to] }, at) => ({
    picture: pictures[count + at], from, to }))) };
}

// Which nets after share a pixel with each net before.
function sharedBy(before, after) {
  const pairs = new Set();
  before.labels.forEach((labels, layer) => labels.forEach((net, at) => {
    const other = after.labels[layer][at];
    if (net >= 0 && other >= 0) pairs.add(`${net} ${other}`);
  }));
  const afters = Array.from({ length: before.count }, () => new Set()), befores = Array.from({ length: after.count }, () => new Set());
  for (const pair of pairs) {
    const [net, other] = pair.split(" ").map(Number);
    afters[net].add(other);
    befores[other].add(net);
  }
  return { afters, befores };
}

const sorted = (lists) => lists.map((nets) => [...nets].sort((one, other) => one - other).join(" ")).sort();

function checkPlaces({ joins, cuts }, before, after, desk) {
  const isBlack = ({ pictures }, { layer, column, row }) => {
    const { bits, stride } = pictures[layer];
    return (bits[row * stride + (column >> 3)] >> (7 - (column & 7)) & 1) === 1;
  };
  for (const { place } of joins.filter((found) => found.place)) {
    assert.ok(isBlack(after, place) && !isBlack(before, place), "a join's place became black");
  }
  for (const { place } of cuts.filter((found) => found.place)) {
    assert.ok(!isBlack(after, place) && isBlack(before, place), "a cut's place became white");
  }
  for (const { place } of [...joins, ...cuts].slice(0, 12)) assert.ok(place, "a place is found");
  assert.ok(desk.layers.length > 0);
}

suite("edits", () => {
  test("joins and cuts of 400 random edits", () => {
    const chance = chances(11);
    let joined = 0, cut = 0;
    for (let number = 0; number < 40; number++) {
      part(`board ${number}`, () => {
        const desk = randomDesk(chance);
        let before = floodOf(desk);
        for (let step = 0; step < 10; step++) {
          edit(desk, chance);
          const changes = desk.settle(), after = floodOf(desk), { afters, befores } = sharedBy(before, after);
          assert.deepEqual([changes.before, changes.after], [before.count, after.count]);
          assert.deepEqual(sorted(changes.joins.map(({ nets }) => nets)), sorted(befores.filter((nets) => nets.size > 1)));
          assert.deepEqual(sorted(changes.cuts.map(({ nets }) => nets)), sorted(afters.filter((nets) => nets.size > 1)));
          assert.equal(changes.appeared.length, befores.filter((nets) => nets.size === 0).length);
          assert.equal(changes.vanished.length, afters.filter((nets) => nets.size === 0).length);
          checkPlaces(changes, before, after, desk);
          joined += changes.joins.length;
          cut += changes.cuts.length;
          before = after;
        }
      });
    }
    assert.ok(joined > 50 && cut > 50, `${joined} joins and ${cut} cuts`);
  });

  test("a place is where the nets meet", () => {
    const desk = new Desk({ x: 0, y: 0, pitch: PITCH, width: 40, height: 40 }, [{ name: "top", passes: null }]);
    const black = (left, top, right, bottom) => {
      for (let row = top; row < bottom; row++) for (let column = left; column < right; column++) flip(desk, 0, column, row);
      desk.changed(0, top, bottom - 1);
    };
    black(0, 5, 40, 8);
    black(0, 20, 40, 23);
    desk.settle();
    black(19, 8, 22, 20);
    const { joins, cuts, before, after } = desk.settle();
    assert.deepEqual([joins, cuts, before, after], [[{ nets: [0, 1], place: { layer: 0, column: 20, row: 14 } }], [], 2, 1]);
    black(19, 8, 22, 20);
    assert.deepEqual(desk.settle().cuts, [{ nets: [0, 1], place: { layer: 0, column: 20, row: 14 } }]);
    const { runs, areas, holes } = desk.about(desk.netAt(500, 39_500 - 5000));
    assert.deepEqual([[...runs[0]], areas[0].toFixed(6), holes], [[5, 0, 40, 6, 0, 40, 7, 0, 40], "0.000120", 0]);
    assert.deepEqual(desk.nextTo(0, 13_000).map(({ net, distance }) => [net, distance]), [[1, 12_000]]);
    assert.deepEqual(desk.nextTo(0, 12_000), []);
  });
});

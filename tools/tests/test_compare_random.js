// Random layers with random differences planted far from one another: all of them are found, each as one place, and nothing
// else, also where apertures have other numbers, and dark items another order.

import assert from "node:assert/strict";
import { recogniseFiles } from "../../web/board/layers.js";
import { ComparedPair } from "../lib/compare_layers.js";
import { part, suite, test } from "./harness.js";
import { compared, gerberText, randomFrom } from "./compared_layers.js";
import { PROGRAM, needProgram } from "./support.js";

const SHAPES = ["C,0.500000", "C,0.800000X0.300000", "R,1.000000X0.600000", "O,0.400000X1.200000", "C,0.100000", "R,0.300000X0.300000"];
const PENS = [0, 4, 5], STEP = 5_000_000, ROUNDS = 60, ITEMS = 120;

// An item around a place, in which each number is from 10 on.
function randomItem(random, x, y, polarity) {
  const shape = 10 + random(SHAPES.length), pen = 10 + PENS[random(PENS.length)], turn = `${"rm"[random(2)]}${90 * random(4)}`;
  const round = turn[0] === "r" ? "r0" : turn;
  switch (random(4)) {
    case 0: return `flash ${shape} ${x} ${y} ${turn} ${polarity}`;
    case 1: return `draw ${pen} ${x} ${y} ${x + random(1_500_000)} ${y + 1 + random(1_500_000)} ${round} ${polarity}`;
    case 2: return `arc 10 ${x} ${y} ${x + 1_000_000} ${y + 1_000_000} ${x + 1_000_000} ${y} ${random(2) ? "cw" : "ccw"} ${polarity}`;
    default: return `region ${polarity} ${x} ${y} l ${x + 900_000} ${y} l ${x + 900_000} ${y + 700_000 + random(1000)} l ${x} ${y + 500_000} l ${x} ${y}`;
  }
}

const shift = (item) => item.split(" ").map((word, at, words) => {
  const isX = words[0] === "region" ? word !== "l" && words.slice(2, at).filter((other) => other !== "l").length % 2 === 0 : at % 2 === 0;
  return at > 1 && isX && /^-?\d+$/.test(word) ? String(Number(word) + 1) : word;
}).join(" ");

// What is done to an item, and what a comparison has to tell of it.
const PLANTS = [
  (item) => ({ items: [shift(item)], what: "moved" }),
  () => ({ items: [], what: "went" }),
  (item) => ({ items: [item, shift(shift(item))], what: "came" }),
  (item) => ({ items: [item.replace(/dark|clear/, (was) => (was === "dark" ? "clear" : "dark"))], what: "changed polarity" }),
  // (A circle has no turn.)
  (item) => (/^flash 1[235] /.test(item) ? { items: [item.replace(/^flash 1\d/, (head) => (head === "flash 12" ? "flash 13" : "flash 12"))],
    what: "changed aperture" } : { items: [], what: "went" }),
];

// Dark items that stand next to one another in another order, and apertures under other numbers.
function disguised(items, random) {
  const made = [...items];
  for (let at = 1; at < made.length; at++) {
    const isDark = (item) => item.endsWith(" dark") || item.startsWith("region dark");
    if (isDark(made[at]) && isDark(made[at - 1]) && random(2)) [made[at - 1], made[at]] = [made[at], made[at - 1]];
  }
  const numbers = SHAPES.map((_, at) => 60 - 3 * at);
  const apertures = new Map(numbers.map((number, at) => [number, SHAPES[at]]));
  return gerberText({ apertures, items: made.map((item) => item.replace(/^(flash|draw|arc) (\d+)/, (_, kind, number) => `${kind} ${numbers[Number(number) - 10]}`)) });
}

suite("random layers", () => {
  test("planted differences are found, each at its place, and nothing else", () => {
    const random = randomFrom(11), apertures = new Map(SHAPES.map((shape, at) => [10 + at, shape]));
    let planted = 0;
    for (let round = 0; round < ROUNDS; round++) {
      part(`round ${round}`, () => {
        const polarity = () => (random(4) ? "dark" : "clear");
        const items = Array.from({ length: ITEMS }, (_, at) => randomItem(random, STEP * (at % 12), STEP * Math.floor(at / 12), polarity()));
        const wanted = [], other = items.flatMap((item, at) => {
          if (random(12)) return [item];
          const { items: made, what } = PLANTS[random(PLANTS.length)](item);
          wanted.push(`${what} at ${STEP * (at % 12)} ${STEP * Math.floor(at / 12)}`);
          return made;
        });
        planted += wanted.length;
        const found = compared(gerberText({ apertures, items }), disguised(other, random));
        const told = found.places.flatMap(({ box, owners }) => owners.map((owner) => {
          const { what, parts } = found.changes[owner], grid = (nm) => Math.round(nm / STEP - 0.15) * STEP;
          return `${[what, ...parts].join(" ")} at ${grid((box.left + box.right) / 2)} ${grid((box.low + box.high) / 2)}`;
        }));
        assert.deepEqual(told.sort(), wanted.sort());
        assert.equal(found.places.length, wanted.length);
        assert.equal(found.outcome, wanted.length ? "differs" : "same");
      });
    }
    assert.ok(planted > 300, String(planted));
  });
});

suite("beside pictures", () => {
  // Items in a heap, so that many reach into one another.
  const heap = (random, count) => Array.from({ length: count }, () => randomItem(random, random(3_000_000), random(3_000_000), random(3) ? "dark" : "clear"));
  const pairOf = (texts) => new ComparedPair({ by: "", first: layerOf(texts[0]), second: layerOf(texts[1]) }, PROGRAM);
  const layerOf = (text) => recogniseFiles([{ name: "a.gbr", bytes: Buffer.from(text) }], true).layers[0];

  test("layers that are the same by their items have no pixel that differs, and where pixels differ an item does", () => {
    needProgram();
    const random = randomFrom(12), apertures = new Map(SHAPES.map((shape, at) => [10 + at, shape]));
    const outcomes = new Map();
    for (let round = 0; round < 48; round++) {
      part(`round ${round}`, () => {
        const items = heap(random, 12), other = [...items], at = random(11);
        if (round % 3 === 0) [other[at], other[at + 1]] = [other[at + 1], other[at]];
        if (round % 3 === 1) other.splice(at, 1);
        const pair = pairOf([gerberText({ apertures, items }), disguised(other, random)]);
        pair.compare(20_000);
        outcomes.set(pair.outcome, (outcomes.get(pair.outcome) ?? 0) + 1);
        if (pair.outcome === "same") pair.see({ x: -2_000_000, y: -2_000_000, pitch: 20_000, width: 600, height: 600 });
        assert.equal(pair.outcome === "same" ? pair.compared.difference.count : 0, 0);
        for (const { owners, box } of pair.compared.places) assert.ok(owners.length, JSON.stringify(box));
      });
    }
    assert.ok(outcomes.get("same") > 5 && outcomes.get("differs") > 5, JSON.stringify([...outcomes]));
  });
});

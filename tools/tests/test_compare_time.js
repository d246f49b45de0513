// What comparing two layers costs: it grows with the items, whatever differs.

import assert from "node:assert/strict";
import { suite, test } from "./harness.js";
import { compared, foundIn, gerberText, randomFrom } from "./compared_layers.js";

const APERTURES = new Map(Array.from({ length: 20 }, (_, at) => [10 + at, `C,0.${100_000 + 1000 * at}`]));
const MANY = 100_000, SOME = 20_000;

// Items in rows of a thousand, flashes and draws; some of them clear.
function madeItems(count, random) {
  return Array.from({ length: count }, (_, at) => {
    const x = 200_000 * (at % 1000), y = 200_000 * Math.floor(at / 1000), polarity = random(10) ? "dark" : "clear", aperture = 10 + random(20);
    return random(2) ? `flash ${aperture} ${x} ${y} r0 ${polarity}` : `draw ${aperture} ${x} ${y} ${x + 150_000} ${y + random(100_000)} r0 ${polarity}`;
  });
}

const shifted = (item) => item.replace(/^(\w+ \d+) (-?\d+) (-?\d+)(?: (-?\d+))?/, (_, head, x, y, end) =>
  `${head} ${Number(x) + 1} ${y}${end === undefined ? "" : ` ${Number(end) + 1}`}`);

// Fails unless a comparison finds so many changes, within so many milliseconds of the processor.
function checkCost(first, second, wanted, most) {
  const texts = [first, second].map((items) => gerberText({ apertures: APERTURES, items })), start = process.cpuUsage();
  const found = foundIn(compared(texts[0], texts[1])), { user, system } = process.cpuUsage(start);
  const counts = {};
  for (const what of found) counts[what] = (counts[what] ?? 0) + 1;
  if (wanted !== null) assert.deepEqual(counts, wanted);
  assert.ok(user + system < 1000 * most, `${Math.round((user + system) / 1000)} ms`);
}

suite("times", () => {
  test("100,000 items: one, all, or half of them differ", () => {
    const items = madeItems(MANY, randomFrom(3));
    checkCost(items, items.map((item, at) => (at === MANY / 2 ? shifted(item) : item)), { moved: 1 }, 4000);
    checkCost(items, items.map(shifted), { moved: MANY }, 12_000);
    checkCost(items, items.filter((_, at) => at % 2), { went: MANY / 2 }, 6000);
  });

  test("the same item many times, items that all lie near, and items that all lie over one another", () => {
    const random = randomFrom(4), near = (round) => Array.from({ length: SOME }, () => `flash 10 ${random(5_000_000)} ${random(5_000_000) + round} r0 dark`);
    checkCost(Array(SOME).fill("flash 10 0 0 r0 dark"), Array(SOME / 2).fill("flash 10 0 0 r0 dark"), { went: SOME / 2 }, 4000);
    checkCost(near(0), near(1), null, 12_000);
    const across = (x) => Array.from({ length: SOME }, (_, at) => `draw 10 ${at * 1000} ${x} ${100_000_000 - at * 1000} 100000000 r0 dark`);
    checkCost(across(0), across(1), null, 12_000);
  });

  test("items in another order", () => {
    const items = madeItems(SOME, randomFrom(5));
    checkCost(items, [...items].reverse(), null, 12_000);
    checkCost([...items, "flash 10 0 0 r0 clear"], ["flash 10 0 0 r0 clear", ...items], null, 6000);
  });
});

// tools/nets on boards of discs and straight draws at random, beside a plain program: which points hang together, and the least
// distances, by exact geometry. More by hand: BOARDS=1000 tools/test nets_plain; SEED=7 begins with another board.

import assert from "node:assert/strict";
import { join } from "node:path";
import { part, suite, test } from "./harness.js";
import { chances } from "./pictures.js";
import { differencesOf, filesOf, gapsOf, holeGapsOf, holesToCopper, randomBoard, ringsOf } from "./plain_boards.js";
import { write } from "./small_boards.js";
import { toSegment } from "./strokes.js";
import { foundIn, newRoom } from "./support_nets.js";

const SEEDS = Array.from({ length: Number(process.env.BOARDS ?? 30) }, (_, at) => at + Number(process.env.SEED ?? 1));
// In mm: a pixel's diagonal, and what rays may miss.
const DIAGONAL = 0.01415, BETWEEN_RAYS = 0.002;
const LIMITS = { ring: 0.2, gap: 0.25, "hole-copper": 0.3, "hole-hole": 0.5 };

const layerOf = (label, copper) => (label === "top" ? 0 : label === "bottom" ? copper - 1 : Number(label.slice(2)));

/** The number of the hole at a place. */
function holeAt({ holes }, x, y) {
  const found = holes.findIndex(({ place }) => Math.hypot(place[0] - x, place[1] - y) < 0.002);
  assert.ok(found >= 0, `no hole at ${x}, ${y}`);
  return found;
}

/** The net of the item that is nearest to a place. */
function netNear({ items, nets }, layer, { x, y }) {
  const away = items.map((item) => (item.layer === layer ? toSegment([Number(x), Number(y)], item.line) - item.radius : Infinity));
  return nets[away.indexOf(Math.min(...away))];
}

/** What a breach is of, as the plain program names it. */
function keyOf(board, { rule, layer, x, y, to, holes }) {
  const number = rule === "hole-hole" ? -1 : layerOf(layer, board.copper), place = { x: Number(x), y: Number(y) };
  if (rule === "gap") return [number, ...[place, to].map((end) => netNear(board, number, end)).sort((one, other) => one - other)].join(" ");
  if (rule !== "hole-hole") return `${number} ${holeAt(board, place.x, place.y)}`;
  assert.equal(holes.length, 2);
  return null;
}

/**
 * Fails where what is told of a rule differs from what is wanted.
 * @param {string} rule
 * @param {Map<string, number>} found
 * @param {Map<string, number>} wanted
 * @param {{more: number, less?: number, isSure?: (key: string) => boolean}} within by how much it may be more, and less; of a key that
 *   is not sure it may be more by any length
 */
function compareValues(rule, found, wanted, { more, less = more, isSure = () => true }) {
  for (const [key, value] of wanted) {
    const told = found.get(key);
    if (told === undefined) assert.ok(value > LIMITS[rule] - more || !isSure(key), `${rule} of ${key}: ${value} is not told`);
    else assert.ok(told >= value - less && (told <= value + more || !isSure(key)), `${rule} of ${key}: ${told} in place of ${value}`);
  }
  for (const key of found.keys()) assert.ok(wanted.has(key), `${rule} of ${key} is told, and is none`);
}

function checkRules(board, rules) {
  const told = new Map(Object.keys(LIMITS).map((rule) => [rule, new Map()]));
  for (const breach of rules.filter(({ rule }) => rule !== "hole-hole")) {
    const own = told.get(breach.rule), key = keyOf(board, breach);
    own.set(key, Math.min(own.get(key) ?? Infinity, Number(breach.value)));
  }
  compareValues("gap", told.get("gap"), gapsOf(board), { more: DIAGONAL });
  compareValues("hole-copper", told.get("hole-copper"), holesToCopper(board), { more: DIAGONAL });
  // White pixels do not reach into the sharp corner between two items.
  const isAlone = (key) => {
    const [layer, number] = key.split(" ").map(Number), { place, radius } = board.holes[number];
    const isNear = (item) => item.layer === layer && toSegment(place, item.line) - item.radius - radius < LIMITS.ring + 2 * DIAGONAL;
    return board.items.filter(isNear).length === 1;
  };
  compareValues("ring", told.get("ring"), ringsOf(board), { more: DIAGONAL, less: DIAGONAL + BETWEEN_RAYS, isSure: isAlone });
  const pairs = rules.filter(({ rule }) => rule === "hole-hole").map(({ value }) => Number(value)).sort((one, other) => one - other);
  const wanted = [...holeGapsOf(board).values()].filter((value) => value < LIMITS["hole-hole"]).sort((one, other) => one - other);
  assert.equal(pairs.length, wanted.length);
  pairs.forEach((value, at) => assert.ok(Math.abs(value - wanted[at]) < 1e-5, `${value} in place of ${wanted[at]}`));
}

function checkDifferences(board, { opens, shorts, withoutCopper }) {
  const parts = ({ parts: own }) => own.map((points) => points.map(({ name }) => name).sort().join(" ")).sort();
  const told = { opens: opens.map((open) => ({ net: open.net, parts: parts(open) })).sort((one, other) => (one.net < other.net ? -1 : 1)),
    shorts: shorts.map(({ nets }) => nets.map(({ net }) => net).sort().join(" ")).sort() };
  assert.deepEqual([told, withoutCopper], [differencesOf(board), []]);
}

suite("boards beside a plain program", () => {
  test(`${SEEDS.length} boards: what hangs together, and the least distances`, () => {
    const limits = new Map(Object.entries(LIMITS).map(([rule, limit]) => [rule, limit * 1e6]));
    for (const seed of SEEDS) {
      part(`board ${seed}`, () => {
        const room = newRoom(), board = randomBoard(chances(seed));
        write(room, filesOf(board));
        const foundBy = foundIn(room, limits);
        for (const netlist of [join(room, "nets.d356"), null]) {
          const found = foundBy(netlist);
          checkDifferences(board, found);
          checkRules(board, found.rules);
        }
      });
    }
  });
});

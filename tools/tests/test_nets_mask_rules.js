// web/nets: rules of mask, ink and paste beside exact geometry, on boards of discs and straight draws at random, and beside a plain
// program on pixels.

import assert from "node:assert/strict";
import { Grid } from "../../web/nets/grid.js";
import { websOf } from "../../web/nets/mask_webs.js";
import { netsOf } from "../../web/nets/nets.js";
import { meetings, piecesOf } from "../../web/nets/overlaps.js";
import { breachesOf } from "../../web/nets/rules.js";
import { runsOf } from "../../web/nets/runs.js";
import { readPbm } from "../../web/bytes/pbm.js";
import { flooded } from "./flood.js";
import { part, suite, test } from "./harness.js";
import { chances, pbm } from "./pictures.js";
import { apart, nmOf, paintedBy, toSegment } from "./strokes.js";

// Lengths are in pixels; places in nm are those of a pitch of 1,000.
const SIDE = 300, PITCH = 1000, DIAGONAL = Math.SQRT2 * PITCH;
const GRID = new Grid({ x: 0, y: 0, pitch: PITCH, width: SIDE, height: SIDE });
const nm = nmOf(SIDE, PITCH), pictureOf = (strokes) => runsOf(readPbm(paintedBy(strokes, SIDE)));

// Strokes that are at least so far from each other.
function randomStrokes(chance, { most, gap, thick, from = 30 }) {
  const strokes = [];
  for (let tries = 0; tries < 80 && strokes.length < most; tries++) {
    const place = () => from + (SIDE - 2 * from) * chance(), [x, y] = [place(), place()], length = chance() < 0.5 ? 0 : 10 + 80 * chance(), angle = 7 * chance();
    const line = [[x, y], [x + length * Math.cos(angle), y + length * Math.sin(angle)]], radius = thick[0] + (thick[1] - thick[0]) * chance();
    if (line[1].some((value) => value < from || value > SIDE - from)) continue;
    if (strokes.every((other) => apart(other.line, line) >= other.radius + radius + gap)) strokes.push({ line, radius });
  }
  return strokes;
}

const grownBy = (strokes, more) => strokes.map(({ line, radius }) => ({ line, radius: radius + more }));
/** @param {{line: number[][]}} stroke */
const middle = ({ line: [[x0, y0], [x1, y1]] }) => [(x0 + x1) / 2, (y0 + y1) / 2];
/** @type {(place: number[]) => [number, number]} */
const at = ([x, y]) => [Math.round(x), Math.round(y)];

// A board of one layer: copper and what lies on it, each as strokes. Pads are those of `pads`, else all copper.
function checkedOf({ copper, openings, ink = [], paste = [], pads = copper }) {
  const side = { name: "top", layer: 0, openings: pictureOf(openings), ink: pictureOf(ink), paste: pictureOf(paste), pads: pads.map((pad) => [nm(middle(pad))]) };
  return { nets: netsOf([pictureOf(copper)]), grid: GRID, holes: [], spans: [], outline: [], sides: [side] };
}

// Fails where values differ by more than a diagonal from those of exact geometry, below a limit.
function compareValues(found, wanted, limit) {
  for (const [key, value] of wanted) {
    const told = found.get(key);
    if (told === undefined) assert.ok(value > limit - DIAGONAL, `${key}: ${value} is not found`);
    else assert.ok(Math.abs(told - value) <= DIAGONAL, `${key}: ${told} in place of ${value}`);
  }
  for (const key of found.keys()) assert.ok(wanted.has(key), `${key} is found, and is none`);
}

// A measure begins on copper, and where it is less than 0 on what lies on it too.
/** @type {(breach: {from: {x: number, y: number}}) => [number, number]} */
const startOf = ({ from: { x, y } }) => [GRID.columnOf(x), GRID.rowOf(y)];
/** @type {(breach: {value: number, from: {x: number, y: number}, to: {x: number, y: number} | null}) => [number, number]} */
const endOffCopper = ({ value, from, to }) => startOf({ from: value < 0 ? from : to });
const keyOf = (...pair) => pair.sort((first, second) => first - second).join(" ");
const leastOf = (list) => {
  const found = new Map();
  for (const [key, value] of list) found.set(key, Math.min(value, found.get(key) ?? Infinity));
  return found;
};

const run = (name, check) => test(`100 boards: ${name}`, () => {
  const chance = chances(9302);
  for (let number = 0; number < 100; number++) part(`board ${number}`, () => check(chance));
});

suite("mask, ink and paste beside exact geometry", () => {
  run("mask web", (chance) => {
    const limit = 20 * PITCH, openings = randomStrokes(chance, { most: 14, gap: 4, thick: [4, 20] }), checked = checkedOf({ copper: openings, openings });
    const pieces = netsOf([checked.sides[0].openings]), pieceOf = (place) => pieces.netAt(0, ...at(place)), wanted = new Map();
    openings.forEach((one, number) => openings.slice(0, number).forEach((other) => {
      wanted.set(keyOf(pieceOf(middle(one)), pieceOf(middle(other))), (apart(one.line, other.line) - one.radius - other.radius) * PITCH);
    }));
    const found = breachesOf(checked, new Map([["mask-web", limit]]));
    for (const { from, to } of found) assert.ok(from && to);
    compareValues(leastOf(found.map(({ from, to, value }) => [keyOf(...[from, to].map(({ x, y }) => pieces.netAt(0, GRID.columnOf(x), GRID.rowOf(y)))), value])), wanted, limit);
  });

  run("copper of another net", (chance) => {
    // Each pad has an opening that is greater by more than the next copper is away, now and then.
    const limit = 6 * PITCH, copper = randomStrokes(chance, { most: 14, gap: 5, thick: [5, 18] }), more = 2 + 10 * chance();
    // Where two openings were one, both nets would have a pad there.
    const opened = copper.reduce((kept, one) => (chance() < 0.7 && kept.every((other) => apart(one.line, other.line) > one.radius + other.radius + 2 * more + 2)
      ? [...kept, one] : kept), []), openings = grownBy(opened, more);
    const checked = checkedOf({ copper, openings, pads: opened }), pieces = netsOf([checked.sides[0].openings]), wanted = new Map();
    const netOf = (stroke) => checked.nets.netAt(0, ...at(middle(stroke))), pieceOf = (stroke) => pieces.netAt(0, ...at(middle(stroke)));
    openings.forEach((opening, number) => copper.filter((stroke) => stroke !== opened[number]).forEach((stroke) => {
      wanted.set(`${pieceOf(opening)} ${netOf(stroke)}`, (Math.max(0, apart(opening.line, stroke.line) - stroke.radius) - opening.radius) * PITCH);
    }));
    const found = breachesOf(checked, new Map([["mask-bare", limit]]));
    compareValues(leastOf(found.map((breach) => [`${pieces.netAt(0, ...endOffCopper(breach))} ${checked.nets.netAt(0, ...startOf(breach))}`, breach.value])), wanted, limit);
    for (const breach of found) assert.deepEqual(breach.nets, [checked.nets.netAt(0, ...startOf(breach))]);
  });

  run("ink on bare copper", (chance) => {
    const limit = 6 * PITCH, copper = randomStrokes(chance, { most: 10, gap: 12, thick: [5, 18] }), openings = grownBy(copper.filter(() => chance() < 0.7), 3);
    const ink = randomStrokes(chance, { most: 10, gap: 4, thick: [2, 6] }), checked = checkedOf({ copper, openings, ink });
    const pieces = netsOf([checked.sides[0].ink]), wanted = new Map(), bare = copper.filter(({ line }) => openings.some((opening) => opening.line === line));
    for (const one of ink) {
      for (const pad of bare) {
        wanted.set(`${pieces.netAt(0, ...at(middle(one)))} ${checked.nets.netAt(0, ...at(middle(pad)))}`,
          (Math.max(0, apart(one.line, pad.line) - one.radius) - pad.radius) * PITCH);
      }
    }
    const found = breachesOf(checked, new Map([["silk-bare", limit]]));
    compareValues(leastOf(found.map((breach) => [`${pieces.netAt(0, ...endOffCopper(breach))} ${breach.nets[0]}`, breach.value])), wanted, limit);
  });

  run("paste and mask", (chance) => {
    // Paste is moved off its opening, and thinner or thicker than it.
    const limit = 5 * PITCH, openings = randomStrokes(chance, { most: 9, gap: 24, thick: [8, 20], from: 40 }), wanted = new Map();
    const paste = openings.map(({ line, radius }) => {
      const off = 4 * chance(), way = 7 * chance();
      return { line: line.map(([x, y]) => [x + off * Math.cos(way), y + off * Math.sin(way)]), radius: radius + 8 * chance() - 6 };
    });
    const checked = checkedOf({ copper: openings, openings, paste }), pieces = netsOf([checked.sides[0].paste]);
    paste.forEach(({ line, radius }, number) => {
      const farthest = Math.max(...line.map((place) => toSegment(place, openings[number].line)));
      wanted.set(String(pieces.netAt(0, ...at(middle(paste[number])))), (openings[number].radius - radius - farthest) * PITCH);
    });
    const found = breachesOf(checked, new Map([["paste", limit]]));
    compareValues(leastOf(found.map(({ from, value }) => [String(pieces.netAt(0, GRID.columnOf(from.x), GRID.rowOf(from.y))), value])), wanted, limit);
  });
});

// What two pictures' pieces are to each other, pixel by pixel: the least distance of the edges of two pixels; where they overlap
// the deepest common pixel, by the nearest one that is white in `deepIn`.
function plainly(one, other, deepIn, most, deepest) {
  const { width, height } = one, [first, second] = [one, other].map((picture) => flooded([picture], []).labels[0]), black = flooded([deepIn], []).labels[0], found = new Map();
  const isOpen = (column, row) => column < 0 || row < 0 || column >= width || row >= height || black[row * width + column] < 0, far = Math.ceil(deepest);
  const depthOf = (column, row) => {
    let least = deepest;
    for (let y = -far; y <= far; y++) for (let x = -far; x <= far; x++) if (isOpen(column + x, row + y)) least = Math.min(least, Math.hypot(x, y));
    return least;
  };
  const take = (key, value) => {
    if (value < most) found.set(key, Math.min(value, found.get(key) ?? Infinity));
  };
  const reach = Math.max(1, Math.ceil(most) + 1);
  for (let place = 0; place < width * height; place++) {
    const column = place % width, row = Math.floor(place / width);
    for (let y = Math.max(0, row - reach); y <= Math.min(height - 1, row + reach) && first[place] >= 0; y++) {
      for (let x = Math.max(0, column - reach); x <= Math.min(width - 1, column + reach); x++) {
        const there = second[y * width + x];
        if (there < 0) continue;
        take(`${first[place]} ${there}`, x === column && y === row ? 0.5 - depthOf(column, row)
          : Math.hypot(Math.max(0, Math.abs(x - column) - 1), Math.max(0, Math.abs(y - row) - 1)));
      }
    }
  }
  return found;
}

suite("mask, ink and paste beside pixels", () => {
  test("100 random pictures", () => {
    const chance = chances(9303);
    for (let number = 0; number < 100; number++) {
      part(`picture ${number}`, () => {
        const below = (count) => Math.floor(chance() * count), width = 10 + below(20), height = 10 + below(70), isFine = chance() < 0.3, pick = () => {
          const boxes = Array.from({ length: 1 + below(7) }, () => [below(width), below(height), 1 + below(9), 1 + below(9)]);
          return readPbm(pbm(width, height, (column, row) => (isFine ? chance() < 0.3 : boxes.some(([left, top, across, down]) => (
            column >= left && row >= top && column < left + across && row < top + down)))));
        };
        const one = pick(), other = pick(), deepIn = chance() < 0.5 ? one : other, most = 6 * chance() - 1, deepest = 3 + 4 * chance();
        const owned = (picture) => piecesOf(netsOf([runsOf(picture)]));
        const found = meetings(owned(one), owned(other), { most, deepIn: runsOf(deepIn), deepest: deepest - 0.5 });
        const wanted = plainly(one, other, deepIn, most, deepest);
        assert.deepEqual(found.map((met) => `${met.one} ${met.other}`).sort(), [...wanted.keys()].sort());
        for (const met of found) assert.ok(Math.abs(met.value - wanted.get(`${met.one} ${met.other}`)) < 1e-9, `${met.value}`);
      });
    }
  });
});

const disc = (x, y, radius) => (column, row) => Math.hypot(column - x, row - y) <= radius;
const bar = (line, width) => (column, row) => toSegment([column, row], line) <= width / 2;
const shapes = (side, isOpen) => runsOf(readPbm(pbm(side, side, isOpen)));

suite("mask within one opening", () => {
  // A disc with a slot of mask in it, which the mask around joins.
  test("a tongue at every angle", () => {
    for (let angle = 0; angle < 180; angle += 7.5) {
      part(`${angle} degrees`, () => {
        const [x, y] = [Math.cos(angle * Math.PI / 180), Math.sin(angle * Math.PI / 180)], tongue = bar([[100 + 90 * x, 100 + 90 * y], [100 + 10 * x, 100 + 10 * y]], 9);
        const [web, ...others] = websOf(shapes(200, (column, row) => disc(100, 100, 60)(column, row) && !tongue(column, row)), 14);
        assert.ok(web && Math.abs(web.width - 9) <= Math.SQRT2, `${web?.width}`);
        assert.ok(toSegment(web.from, [[100 + 60 * x, 100 + 60 * y], [100 + 10 * x, 100 + 10 * y]]) <= Math.SQRT2, String(web.from));
        assert.deepEqual([others, web.to], [[], null]);
      });
    }
  });

  test("islands, a bridge between two sides, and corners that are none", () => {
    const island = (radius) => websOf(shapes(200, (column, row) => disc(100, 100, 60)(column, row) && !disc(90, 110, radius)(column, row)), 14);
    assert.deepEqual(island(7.8), []);
    const [web, ...others] = island(5);
    assert.ok(Math.abs(web.width - 10) <= Math.SQRT2 && Math.hypot(web.from[0] - 90, web.from[1] - 110) <= Math.SQRT2, JSON.stringify(web));
    assert.deepEqual(others, []);
    // A long island is found once.
    const long = websOf(shapes(200, (column, row) => disc(100, 100, 60)(column, row) && !bar([[80, 100], [120, 100]], 7)(column, row)), 14);
    assert.ok(long.length === 1 && Math.abs(long[0].width - 7) <= Math.SQRT2, JSON.stringify(long));
    // A ring that is nearly closed: the mask inside hangs on that outside by a bridge.
    const ring = (column, row) => disc(100, 100, 60)(column, row) && !disc(100, 100, 40)(column, row) && !bar([[100, 100], [200, 100]], 8)(column, row);
    const [bridge, ...more] = websOf(shapes(200, ring), 14);
    assert.ok(Math.abs(bridge.width - 8) <= Math.SQRT2 && Math.abs(bridge.from[1] - 100) <= Math.SQRT2, JSON.stringify(bridge));
    assert.deepEqual(more, []);
    // A cross has four corners of mask, and a box none.
    const within = (left, top, right, bottom) => (column, row) => column >= left && row >= top && column < right && row < bottom;
    const cross = [within(40, 90, 160, 110), within(90, 40, 110, 160)];
    assert.deepEqual(websOf(shapes(200, (column, row) => cross.some((isIn) => isIn(column, row))), 14), []);
    assert.deepEqual(websOf(shapes(200, within(0, 0, 200, 200)), 14), []);
  });

  test("what another opening lies in is no mask", () => {
    // A bay of 12 pixels, and in it a bar of 6: 3 are left on both sides.
    const bay = (column, row) => disc(100, 100, 60)(column, row) && !bar([[100, 100], [200, 100]], 12)(column, row), isOpen = (column, row) => bay(column, row)
      || bar([[110, 100], [190, 100]], 6)(column, row);
    const webs = websOf(shapes(200, isOpen), 14);
    assert.ok(webs.length === 1 && webs[0].to !== null && Math.abs(webs[0].width - 3) <= Math.SQRT2, JSON.stringify(webs));
  });
});

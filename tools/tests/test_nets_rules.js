// web/nets/rules.js: the values of the rules beside exact geometry, on boards of discs and straight draws at random.

import assert from "node:assert/strict";
import { Grid } from "../../web/nets/grid.js";
import { netsOf } from "../../web/nets/nets.js";
import { RULES, readRules } from "../../web/nets/rule_table.js";
import { breachesOf } from "../../web/nets/rules.js";
import { runsOf } from "../../web/nets/runs.js";
import { readPbm } from "../../web/bytes/pbm.js";
import { part, suite, test } from "./harness.js";
import { chances, pbm } from "./pictures.js";

// Lengths are in pixels; a pixel's centre has its column and its row as coordinates. Places in nm are those of a pitch of 1,000.
const SIDE = 300, PITCH = 1000, DIAGONAL = Math.SQRT2 * PITCH;
const GRID = new Grid({ x: 0, y: 0, pitch: PITCH, width: SIDE, height: SIDE });
/** @type {(place: number[]) => [number, number]} */
const nm = ([x, y]) => [(x + 0.5) * PITCH, (SIDE - 0.5 - y) * PITCH];

// The distance of two segments by many places on them would be inexact: it is 0 where they cross, else that of an end.
function toSegment([x, y], [[x0, y0], [x1, y1]]) {
  const dx = x1 - x0, dy = y1 - y0, square = dx * dx + dy * dy, part = square ? Math.min(1, Math.max(0, ((x - x0) * dx + (y - y0) * dy) / square)) : 0;
  return Math.hypot(x - x0 - part * dx, y - y0 - part * dy);
}

function apart(one, other) {
  const [a, b] = one, [c, d] = other, side = (p, q, r) => (q[0] - p[0]) * (r[1] - p[1]) - (q[1] - p[1]) * (r[0] - p[0]);
  if (side(a, b, c) * side(a, b, d) < 0 && side(c, d, a) * side(c, d, b) < 0) return 0;
  return Math.min(toSegment(a, other), toSegment(b, other), toSegment(c, one), toSegment(d, one));
}

// Copper as strokes: a disc is one whose ends are one place. Strokes of one group touch, those of different groups do not.
function randomBoard(chance) {
  const strokes = [], holes = [];
  for (let tries = 0; tries < 60 && strokes.length < 14; tries++) {
    const x = 40 + 220 * chance(), y = 40 + 220 * chance(), isDisc = chance() < 0.5, length = isDisc ? 0 : 20 + 90 * chance(), angle = 7 * chance();
    const line = [[x, y], [x + length * Math.cos(angle), y + length * Math.sin(angle)]], radius = isDisc ? 9 + 16 * chance() : 3 + 6 * chance();
    if (line[1].some((place) => place < 25 || place > SIDE - 25)) continue;
    if (strokes.some((other) => apart(other.line, line) < other.radius + radius + 4)) continue;
    strokes.push({ line, radius, isDisc });
    if (!isDisc || chance() < 0.2) continue;
    // A hole in the pad, off its middle; some break out.
    const off = chance() * radius * 0.5, way = 7 * chance();
    holes.push({ place: [x + off * Math.cos(way), y + off * Math.sin(way)], radius: radius * (0.3 + 0.4 * chance()), pad: strokes[strokes.length - 1] });
  }
  return { strokes, holes };
}

// A pixel is black where its centre lies in a stroke.
function pictureOf(strokes) {
  const black = new Uint8Array(SIDE * SIDE);
  for (const { line: [[x0, y0], [x1, y1]], radius } of strokes) {
    for (let row = Math.max(0, Math.floor(Math.min(y0, y1) - radius)); row <= Math.min(SIDE - 1, Math.max(y0, y1) + radius); row++) {
      for (let column = Math.max(0, Math.floor(Math.min(x0, x1) - radius)); column <= Math.min(SIDE - 1, Math.max(x0, x1) + radius); column++) {
        if (toSegment([column, row], [[x0, y0], [x1, y1]]) <= radius) black[row * SIDE + column] = 1;
      }
    }
  }
  return runsOf(readPbm(pbm(SIDE, SIDE, (column, row) => black[row * SIDE + column] === 1)));
}

function checkedOf({ strokes, holes }, outline = []) {
  const copper = pictureOf(strokes), drilled = pictureOf(holes.map(({ place, radius }) => ({ line: [place, place], radius })));
  const spans = [{ runs: drilled, from: 0, to: 0 }];
  return { nets: netsOf([copper], spans), grid: GRID, spans, outline: outline.map((line) => line.map(nm)),
    holes: holes.map(({ place, radius }, at) => ({ line: [nm(place)], radius: radius * PITCH, isPlated: true, layer: 0, source: `hole ${at}` })) };
}

// Fails where values differ by more than a diagonal from those of exact geometry, below a limit; each key once.
function compareValues(found, wanted, limit) {
  for (const [key, value] of wanted) {
    const told = found.get(key);
    if (told === undefined) assert.ok(value > limit - DIAGONAL, `${key}: ${value} is not found`);
    else assert.ok(Math.abs(told - Math.max(0, value)) <= DIAGONAL, `${key}: ${told} in place of ${value}`);
  }
  for (const key of found.keys()) assert.ok(wanted.has(key), `${key} is found, and is none`);
}

const sourceKey = (found) => new Map(found.map(({ sources, value }) => [sources.join(" "), value]));

suite("rules beside exact geometry", () => {
  const run = (name, count, check) => test(`${count} boards: ${name}`, () => {
    const chance = chances(93);
    for (let number = 0; number < count; number++) part(`board ${number}`, () => check(randomBoard(chance), chance));
  });

  run("annular ring", 100, (board) => {
    const limit = 15 * PITCH, found = breachesOf(checkedOf(board), new Map([["ring", limit]]));
    const wanted = new Map(board.holes.map(({ place, radius, pad }, at) => [`hole ${at}`,
      (pad.radius - radius - Math.hypot(place[0] - pad.line[0][0], place[1] - pad.line[0][1])) * PITCH]));
    compareValues(sourceKey(found), wanted, limit);
  });

  run("copper to copper", 100, (board) => {
    const limit = 20 * PITCH, checked = checkedOf(board), found = new Map();
    for (const { nets, value } of breachesOf(checked, new Map([["gap", limit]]))) {
      const key = [...nets].sort((one, other) => one - other).join(" ");
      found.set(key, Math.min(value, found.get(key) ?? Infinity));
    }
    const netOf = ({ line: [[x, y]] }) => checked.nets.netAt(0, Math.round(x), Math.round(y)), wanted = new Map();
    board.strokes.forEach((one, at) => board.strokes.slice(0, at).forEach((other) => {
      const key = [netOf(one), netOf(other)].sort((a, b) => a - b).join(" ");
      wanted.set(key, Math.min(wanted.get(key) ?? Infinity, (apart(one.line, other.line) - one.radius - other.radius) * PITCH));
    }));
    compareValues(found, wanted, limit);
  });

  run("hole to copper", 100, (board) => {
    const limit = 30 * PITCH, found = breachesOf(checkedOf(board), new Map([["hole-copper", limit]]));
    const wanted = new Map(board.holes.map(({ place, radius, pad }, at) => [`hole ${at}`, Math.min(...board.strokes.filter((stroke) => stroke !== pad)
      .map((stroke) => (toSegment(place, stroke.line) - stroke.radius - radius) * PITCH))]));
    compareValues(sourceKey(found), wanted, limit);
  });

  run("copper to outline", 100, (board, chance) => {
    const limit = 25 * PITCH, corners = [[10, 10], [280 + 10 * chance(), 12], [285, 290], [12 + 8 * chance(), 280]];
    const lines = corners.map((corner, at) => [corner, corners[(at + 1) % 4]]), found = breachesOf(checkedOf(board, lines), new Map([["outline", limit]]));
    const values = lines.map((line) => Math.min(...board.strokes.map((stroke) => (apart(stroke.line, line) - stroke.radius) * PITCH)));
    const told = found.map(({ value }) => value).sort((one, other) => one - other), wanted = values.filter((value) => value < limit).sort((one, other) => one - other);
    assert.ok(Math.abs(told.length - wanted.length) <= values.filter((value) => Math.abs(value - limit) < DIAGONAL).length);
    told.slice(0, wanted.length).forEach((value, at) => assert.ok(Math.abs(value - Math.max(0, wanted[at])) <= DIAGONAL, `${value} in place of ${wanted[at]}`));
  });

  run("hole to hole", 100, (board) => {
    const limit = 60 * PITCH, found = breachesOf(checkedOf(board), new Map([["hole-hole", limit]])), wanted = new Map();
    board.holes.forEach((one, at) => board.holes.slice(0, at).forEach((other, before) => {
      const value = (Math.hypot(one.place[0] - other.place[0], one.place[1] - other.place[1]) - one.radius - other.radius) * PITCH;
      if (value < limit) wanted.set(`hole ${before} hole ${at}`, value);
    }));
    const told = sourceKey(found);
    assert.deepEqual([...told.keys()].sort(), [...wanted.keys()].sort());
    for (const [key, value] of wanted) assert.ok(Math.abs(told.get(key) - value) < 1, key);
  });

  run("thin copper", 100, (board) => {
    const limit = 14 * PITCH, checked = checkedOf(board), found = breachesOf(checked, new Map([["width", limit]]));
    const wanted = board.strokes.filter(({ radius }) => 2 * radius * PITCH < limit - DIAGONAL);
    for (const { line, radius } of wanted) {
      const net = checked.nets.netAt(0, Math.round(line[0][0]), Math.round(line[0][1])), told = found.filter(({ nets }) => nets[0] === net);
      assert.equal(told.length, 1);
      assert.ok(Math.abs(told[0].value - 2 * radius * PITCH) <= DIAGONAL, `${told[0].value} in place of ${2 * radius * PITCH}`);
    }
    assert.ok(found.length >= wanted.length && found.every(({ value }) => value < limit));
  });
});

suite("rules", () => {
  test("a slot's ring, a breakout, and white in a pad's own hole", () => {
    const disc = (x, y, radius) => (column, row) => Math.hypot(column - x, row - y) <= radius;
    const stroke = (x0, x1, y, radius) => (column, row) => toSegment([column, row], [[x0, y], [x1, y]]) <= radius;
    const isCopper = (column, row) => [stroke(60, 100, 60, 20), disc(200, 60, 30), disc(60, 200, 20)].some((isIn) => isIn(column, row)) && !disc(200, 60, 8)(column, row);
    const isHole = (column, row) => [stroke(65, 100, 60, 12), disc(200, 60, 15), disc(72, 200, 12)].some((isIn) => isIn(column, row));
    const runs = (isIn) => runsOf(readPbm(pbm(SIDE, SIDE, isIn))), spans = [{ runs: runs(isHole), from: 0, to: 0 }];
    /** @type {[line: number[][], radius: number][]} */
    const drilled = [[[[65, 60], [100, 60]], 12], [[[200, 60]], 15], [[[72, 200]], 12]];
    const holes = drilled.map(([line, radius], at) => (
      { line: line.map(nm), radius: radius * PITCH, isPlated: true, layer: 0, source: `hole ${at}` }));
    const found = sourceKey(breachesOf({ nets: netsOf([runs(isCopper)], spans), grid: GRID, spans, outline: [], holes }, new Map([["ring", 40 * PITCH]])));
    /** @type {[key: string, value: number][]} */
    const wanted = [["hole 0", 8], ["hole 1", 15], ["hole 2", 0]];
    for (const [key, value] of wanted) {
      assert.ok(Math.abs(found.get(key) - value * PITCH) <= DIAGONAL, `${key}: ${found.get(key)} in place of ${value * PITCH}`);
    }
  });

  test("a file of limits", () => {
    const { limits, refusals } = readRules("# a house\nring 0.13\n\ngap 0.15 # tracks\nhole-hole=0.5\nside 1\nring\nwidth 0\nwidth 0.1 0.2\nwidth 6mil\noutline 10in\noutline 1001mm\nwidth -1\n");
    assert.deepEqual([...limits], [["ring", 130_000], ["gap", 150_000], ["hole-hole", 500_000], ["width", 152_400], ["outline", 254_000_000]]);
    assert.deepEqual(refusals.map(({ line }) => line), [6, 7, 8, 9, 12, 13]);
    for (const { definition } of RULES.values()) assert.ok(definition.length > 20);
  });
});

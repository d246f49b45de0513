// web/nets/measures.js: the measure of each finding leads from edge to edge, and is as long as its value is told; on boards of discs
// and straight draws at random.

import assert from "node:assert/strict";
import { readPbm } from "../../web/bytes/pbm.js";
import { Grid } from "../../web/nets/grid.js";
import { compareNets } from "../../web/nets/compare.js";
import { netsOf } from "../../web/nets/nets.js";
import { breachesOf } from "../../web/nets/rules.js";
import { runsOf } from "../../web/nets/runs.js";
import { part, suite, test } from "./harness.js";
import { chances } from "./pictures.js";
import { apart, nmOf, paintedBy, toSegment } from "./strokes.js";

// Lengths are in pixels; places in nm are those of a pitch of 1,000.
const SIDE = 260, PITCH = 1000, DIAGONAL = Math.SQRT2;
const GRID = new Grid({ x: 0, y: 0, pitch: PITCH, width: SIDE, height: SIDE });
const nm = nmOf(SIDE, PITCH), pictureOf = (strokes) => runsOf(readPbm(paintedBy(strokes, SIDE)));
/** @type {(spot: {x: number, y: number}) => [number, number]} */
const pixel = ({ x, y }) => [x / PITCH - 0.5, SIDE - 0.5 - y / PITCH];

function randomStrokes(chance, most, gap) {
  const strokes = [];
  for (let tries = 0; tries < 60 && strokes.length < most; tries++) {
    const x = 40 + 180 * chance(), y = 40 + 180 * chance(), length = chance() < 0.5 ? 0 : 15 + 70 * chance(), angle = 7 * chance();
    const line = [[x, y], [x + length * Math.cos(angle), y + length * Math.sin(angle)]], radius = length ? 3 + 5 * chance() : 8 + 12 * chance();
    if (line[1].some((place) => place < 30 || place > SIDE - 30)) continue;
    if (strokes.every((other) => apart(other.line, line) >= other.radius + radius + gap)) strokes.push({ line, radius });
  }
  return strokes;
}

// How far a place is from the rim of the nearest of some strokes.
const toRim = (strokes, place) => Math.min(...strokes.map(({ line, radius }) => Math.abs(toSegment(place, line) - radius)));
const lengthOf = ([from, to]) => Math.hypot(to.x - from.x, to.y - from.y);

// Fails where a measure is not as long as its value, or does not end on these edges.
function checkMeasure({ rule, value, measure }, ...edges) {
  assert.ok(measure, rule);
  assert.ok(Math.abs(lengthOf(measure) - Math.abs(value)) < 1, `${rule}: ${lengthOf(measure)} in place of ${value}`);
  edges.forEach(([strokes, most], at) => {
    const away = toRim(strokes, pixel(measure[at]));
    assert.ok(away <= most, `${rule}: end ${at} is ${away} pixels from the edge`);
  });
}

const checkedOf = (copper, holes, more = {}) => {
  const spans = [{ runs: pictureOf(holes), from: 0, to: 0 }];
  return { nets: netsOf([pictureOf(copper)], spans), grid: GRID, spans, outline: [], points: [], ...more,
    holes: holes.map(({ line: [place], radius }, at) => ({ line: [nm(place)], radius: radius * PITCH, isPlated: true, layer: 0, source: `hole ${at}` })) };
};
const broken = (checked, rule, limit) => breachesOf(checked, new Map([[rule, limit * PITCH]]));

// The discs of a board with holes off their middles; none breaks out.
function drilled(strokes, chance) {
  return strokes.filter(({ line: [one, other] }) => one === other || (one[0] === other[0] && one[1] === other[1])).map(({ line: [[x, y]], radius }) => {
    const way = 7 * chance(), off = 0.2 * radius, place = [x + off * Math.cos(way), y + off * Math.sin(way)];
    return { line: [place, place], radius: 0.5 * radius };
  });
}

suite("measures of findings", () => {
  const run = (name, check) => test(`60 boards: ${name}`, () => {
    const chance = chances(17);
    let count = 0;
    for (let number = 0; number < 60; number++) part(`board ${number}`, () => { count += check(randomStrokes(chance, 12, 4), chance); });
    assert.ok(count > 30, `${count} alone`);
  });

  run("from copper to copper, of another net and of the outline", (copper) => {
    const found = broken(checkedOf(copper, []), "gap", 16);
    for (const breach of found) checkMeasure(breach, [copper, DIAGONAL], [copper, DIAGONAL]);
    const line = [[20, 24], [20, 240]], edge = broken(checkedOf(copper, [], { outline: [line.map(nm)] }), "outline", 40);
    for (const breach of edge) checkMeasure(breach, [[{ line, radius: 0 }], 0.001], [copper, DIAGONAL]);
    return found.length + edge.length;
  });

  run("from a hole's rim to white, to copper and to another hole", (copper, chance) => {
    const holes = drilled(copper, chance), checked = checkedOf(copper, holes);
    const rings = broken(checked, "ring", 12), others = broken(checked, "hole-copper", 30), pairs = broken(checked, "hole-hole", 40);
    for (const breach of rings) checkMeasure(breach, [holes, 0.001], [copper, DIAGONAL]);
    for (const breach of others) checkMeasure(breach, [holes, 0.001], [copper, DIAGONAL]);
    for (const breach of pairs) checkMeasure(breach, [holes, 0.001], [holes, 0.001]);
    return rings.length + others.length;
  });

  run("across thin copper", (copper) => {
    const found = broken(checkedOf(copper, []), "width", 12);
    for (const breach of found) checkMeasure(breach, [copper, DIAGONAL], [copper, DIAGONAL]);
    return found.length;
  });

  run("of mask between openings, and of copper in an opening", (openings, chance) => {
    const copper = openings.map(({ line, radius }) => ({ line: line.map(([x, y]) => [x + 6 * chance(), y]), radius: radius * 0.6 }));
    const side = { name: "top", layer: 0, openings: pictureOf(openings), ink: null, paste: null, pads: [] };
    const webs = broken(checkedOf(copper, [], { sides: [side] }), "mask-web", 16);
    for (const breach of webs) if (breach.to) checkMeasure(breach, [openings, DIAGONAL], [openings, DIAGONAL]);
    // (ink on all copper, which lies in it as deep as it is)
    const inked = broken(checkedOf(copper, [], { sides: [{ ...side, ink: pictureOf(copper) }] }), "silk-bare", 0);
    for (const breach of inked) {
      checkMeasure(breach);
      assert.ok(Math.min(toRim(copper, pixel(breach.measure[1])), toRim(openings, pixel(breach.measure[1]))) <= DIAGONAL);
    }
    return webs.length + inked.length;
  });

  test("of a bridge and of an island of mask within one opening", () => {
    const bar = (x0, x1, y0, y1) => Array.from({ length: y1 - y0 + 1 }, (_, row) => ({ line: [[x0, y0 + row], [x1, y0 + row]], radius: 0.4 }));
    // Mask stands into the opening from its left, 7 pixels high; and alone in its middle, 5 by 5.
    const openings = [...bar(40, 120, 40, 60), ...bar(90, 120, 61, 67), ...bar(40, 120, 68, 90), ...bar(150, 200, 40, 60), ...bar(150, 170, 61, 65),
      ...bar(176, 200, 61, 65), ...bar(150, 200, 66, 90)];
    const side = { name: "top", layer: 0, openings: pictureOf(openings), ink: null, paste: null, pads: [] };
    const found = broken(checkedOf([], [], { sides: [side] }), "mask-web", 12).filter(({ to }) => to === null);
    assert.equal(found.length, 2);
    for (const breach of found) checkMeasure(breach);
    const [island, bridge] = found, [low, high] = bridge.measure.map(({ y }) => SIDE - y / PITCH).sort((one, other) => one - other);
    assert.ok(Math.abs(low - 61) <= DIAGONAL && Math.abs(high - 68) <= DIAGONAL, `${low} ${high}`);
    for (const { x, y } of island.measure) assert.ok(Math.max(Math.abs(x / PITCH - 173.5), Math.abs(SIDE - y / PITCH - 63.5)) <= 2.5 + DIAGONAL);
  });

  test("across the narrowest place between two nets that are one piece", () => {
    const copper = [{ line: [[60, 60], [60, 60]], radius: 16 }, { line: [[180, 60], [180, 60]], radius: 16 }, { line: [[60, 60], [180, 60]], radius: 4 }];
    const point = (net, place) => ({ net, name: net, isPin: true, source: net, x: nm(place)[0], y: nm(place)[1], layers: [0], isThrough: false, reach: 0 });
    const { shorts: [short] } = compareNets(netsOf([pictureOf(copper)]), GRID, [point("A", [60, 60]), point("B", [180, 60])]);
    const { measure, width } = short.touching[0];
    assert.ok(Math.abs(lengthOf(measure) - width) < 1);
    const [low, high] = measure.map(({ y }) => SIDE - 0.5 - y / PITCH).sort((one, other) => one - other);
    assert.ok(Math.abs(low - 56) <= DIAGONAL && Math.abs(high - 64) <= DIAGONAL, `${low} ${high}`);
  });
});

// web/nets: holes without a pad, pads without a hole, doubled hits and holes that overlap, beside exact geometry.

import assert from "node:assert/strict";
import { Grid } from "../../web/nets/grid.js";
import { netsOf } from "../../web/nets/nets.js";
import { readRules } from "../../web/nets/rule_table.js";
import { breachesOf } from "../../web/nets/rules.js";
import { runsOf } from "../../web/nets/runs.js";
import { readPbm } from "../../web/bytes/pbm.js";
import { part, suite, test } from "./harness.js";
import { chances } from "./pictures.js";
import { apart, nmOf, paintedBy, toSegment } from "./strokes.js";

// Lengths are in pixels; places in nm are those of a pitch of 10,000.
const SIDE = 300, PITCH = 10_000, DIAGONAL = Math.SQRT2 * PITCH, MM = 1_000_000;
const GRID = new Grid({ x: 0, y: 0, pitch: PITCH, width: SIDE, height: SIDE });
const nm = nmOf(SIDE, PITCH), pictureOf = (strokes) => runsOf(readPbm(paintedBy(strokes, SIDE)));

// Holes by their strokes, in layers of holes of these spans.
function checkedOf({ layers, drilled, spans = [{ from: 0, to: layers.length - 1 }], points = [] }) {
  const own = spans.map((span, at) => ({ ...span, runs: pictureOf(drilled.filter(({ layer = 0 }) => layer === at)) }));
  return { nets: netsOf(layers.map(pictureOf), own), grid: GRID, spans: own, outline: [], points,
    holes: drilled.map(({ line, radius, isPlated = true, layer = 0 }, at) => ({ line: line.map(nm), radius: radius * PITCH, isPlated, layer, source: `hole ${at}` })) };
}

const limits = (words) => readRules(words).limits;
const disc = (x, y, radius, more = {}) => ({ line: [[x, y], [x, y]], radius, ...more });
// Holes that are hit have one place.
const hit = (x, y, radius, more = {}) => ({ line: [[x, y]], radius, ...more });
const isNear = (value, wanted, within = DIAGONAL) => assert.ok(Math.abs(value - wanted) <= within, `${value} in place of ${wanted}`);

function randomHoles(chance, count) {
  return Array.from({ length: count }, () => {
    const [x, y] = [50 + 200 * chance(), 50 + 200 * chance()], isSlot = chance() < 0.3, radius = 4 + 8 * chance();
    return { line: isSlot ? [[x, y], [x + 30 * chance() - 15, y + 30 * chance() - 15]] : [[x, y]], radius };
  });
}

const segmentOf = ({ line }) => (line.length === 1 ? [line[0], line[0]] : line);
const run = (name, check) => test(`100 boards: ${name}`, () => {
  const chance = chances(9304);
  for (let number = 0; number < 100; number++) part(`board ${number}`, () => check(chance));
});

suite("holes and pads beside exact geometry", () => {
  run("holes without a pad", (chance) => {
    const limit = 3 * PITCH, drilled = randomHoles(chance, 9), layers = [0, 1, 2].map(() => Array.from({ length: 8 }, () => disc(40 + 220 * chance(), 40 + 220 * chance(), 5 + 12 * chance())));
    const found = new Map(breachesOf(checkedOf({ layers, drilled }), limits("hole-pad 0.03")).map(({ layer, sources: [hole], value }) => [`${layer} ${hole}`, value]));
    drilled.forEach((hole, at) => [0, 2].forEach((layer) => {
      const away = Math.min(...layers[layer].map((pad) => toSegment(pad.line[0], segmentOf(hole)) - pad.radius - hole.radius)) * PITCH;
      const told = found.get(`${layer} hole ${at}`);
      if (told === undefined) assert.ok(away <= limit + DIAGONAL, `${away} is not found`);
      else isNear(told, Math.min(MM, away));
      found.delete(`${layer} hole ${at}`);
    }));
    assert.deepEqual([...found], []);
  });

  run("pads without a hole", (chance) => {
    const limit = 5 * PITCH, drilled = randomHoles(chance, 7), places = Array.from({ length: 9 }, (_, at) => {
      const [x, y] = at < 5 ? drilled[at].line[0] : [50 + 200 * chance(), 50 + 200 * chance()];
      return [x + 14 * chance() - 7, y + 14 * chance() - 7];
    });
    const points = places.map((place, at) => ({ net: "A", name: `P-${at}`, isPin: true, isDrilled: true, isThrough: true, source: "", x: nm(place)[0], y: nm(place)[1], layers: [0, 1], reach: 0 }));
    const found = new Map(breachesOf(checkedOf({ layers: [[], []], drilled, points }), limits("pad-hole 0.05")).map(({ shown: [pad], value }) => [pad, value]));
    places.forEach((place, at) => {
      const away = Math.min(...drilled.map((hole) => toSegment(place, segmentOf(hole)))) * PITCH, told = found.get(`P-${at} of A`);
      assert.equal(told !== undefined, away > limit, `${away}`);
      if (told !== undefined) isNear(told, Math.min(MM, away), 1);
    });
  });

  run("doubled hits and holes that overlap", (chance) => {
    const drilled = randomHoles(chance, 14);
    for (const hole of drilled.slice(0, 3)) {
      const off = 3 * chance(), way = 7 * chance(), line = hole.line.map(([x, y]) => [x + off * Math.cos(way), y + off * Math.sin(way)]);
      drilled.push({ line: chance() < 0.5 ? line : line.reverse(), radius: 4 + 8 * chance() });
    }
    const found = breachesOf(checkedOf({ layers: [[], []], drilled }), limits("doubled 0.02\noverlap 0.01\nhole-hole 0.05")), told = new Map();
    for (const { rule, sources, value } of found) {
      assert.ok(!told.has(sources.join(" ")), "a pair is reported once");
      told.set(sources.join(" "), [rule, value]);
    }
    drilled.forEach((one, at) => drilled.slice(0, at).forEach((other, before) => {
      const far = (places) => Math.max(...places.map(([x, y], place) => Math.hypot(x - one.line[place][0], y - one.line[place][1])));
      const middles = one.line.length === other.line.length ? Math.min(far(other.line), far([...other.line].reverse())) : Infinity;
      const rims = apart(segmentOf(one), segmentOf(other)) - one.radius - other.radius, [rule, value] = told.get(`hole ${before} hole ${at}`) ?? [];
      const wanted = middles < 2 ? ["doubled", middles] : rims < -1 ? ["overlap", -rims] : rims < 5 ? ["hole-hole", rims] : [];
      assert.equal(rule, wanted[0]);
      if (rule) isNear(value, Number(wanted[1]) * PITCH, 1);
    }));
  });
});

suite("holes and pads", () => {
  const pads = (layers) => Array.from({ length: layers }, () => [disc(100, 100, 30), disc(200, 200, 30)]);

  test("a hole needs a pad where it begins and where it ends", () => {
    const layers = pads(4);
    layers[3].pop();
    layers[1].pop();
    const found = (drilled, spans) => breachesOf(checkedOf({ layers, drilled, spans }), limits("hole-pad 0.05")).map(({ layer, sources: [hole], value }) => [layer, hole, value]);
    assert.deepEqual(found([hit(100, 100, 10), hit(200, 200, 10)]), [[3, "hole 1", MM]]);
    // A blind one ends on the second layer, and one without plating needs none.
    assert.deepEqual(found([hit(200, 200, 10)], [{ from: 0, to: 1 }]).map(([layer]) => layer), [1]);
    assert.deepEqual(found([hit(200, 200, 10)], [{ from: 0, to: 2 }]), []);
    assert.deepEqual(found([hit(200, 200, 10, { isPlated: false })]), []);
    // A pad that is white in its middle is one, if it reaches the hole's rim.
    assert.deepEqual(breachesOf(checkedOf({ layers: [[disc(140, 100, 30)]], drilled: [hit(100, 100, 10)] }), limits("hole-pad 0.05")), []);
  });

  test("a pad needs a hole through all of its layers", () => {
    const point = (more) => ({ net: "A", name: "V", isPin: false, isDrilled: true, isThrough: true, source: "", x: nm([100, 100])[0], y: nm([100, 100])[1], layers: [0, 3], reach: 0, ...more });
    const found = (points, spans) => breachesOf(checkedOf({ layers: pads(4), drilled: [hit(100, 100, 10)], spans, points }), limits("pad-hole 0.05")).map(({ value }) => value);
    assert.deepEqual(found([point({}), point({ layers: [0] })], [{ from: 0, to: 3 }]), []);
    assert.deepEqual(found([point({}), point({ layers: [0] })], [{ from: 0, to: 1 }]), [MM]);
    assert.deepEqual(found([point({ isDrilled: false })], [{ from: 0, to: 1 }]), []);
  });

  test("vias of different spans, one upon the other, are not doubled", () => {
    const found = (second) => breachesOf(checkedOf({ layers: pads(4), drilled: [hit(100, 100, 10), hit(100, 100, 10, { layer: 1 })], spans: [{ from: 0, to: 1 }, second] }),
      limits("doubled 0.02\noverlap 0.01")).map(({ rule }) => rule);
    assert.deepEqual(found({ from: 1, to: 2 }), []);
    assert.deepEqual(found({ from: 0, to: 3 }), ["doubled"]);
  });

  test("limits that may be less than 0, and what is more", () => {
    const { limits: taken, refusals } = readRules("paste -0.02\nmask-bare 0\nhole-pad 0\npad-hole 1\nmask-web 0\nsilk-bare -1\npaste -0.999999\n");
    assert.deepEqual([...taken], [["paste", -999_999], ["mask-bare", 0], ["hole-pad", 0]]);
    assert.deepEqual(refusals.map(({ line }) => line), [4, 5, 6]);
    assert.match(refusals[0].what, /, from 0\.000 to 0\.999999 mm$/);
  });
});

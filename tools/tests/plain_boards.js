// Boards of discs and straight draws at random, and what is true of them by exact geometry, as plainly as can be: what tools/nets is
// compared with. Lengths are in mm. No two things are so near to touching that pixels could tell otherwise.

import { draw, drill, flash, gerber, netlist } from "./small_boards.js";
import { apart, toSegment } from "./strokes.js";

/** @typedef {[number, number]} Place */
/** @typedef {{layer: number, line: Place[], radius: number, isDisc: boolean}} Item */
/** @typedef {{place: Place, radius: number, from: number, to: number}} Hole */
/** @typedef {{item: number, net: string, name: string}} Point of a disc */

const SIDE = 6, TRIES = 90, RAYS = 1440;
// What touches overlaps by so much; what does not is so far apart.
const DEEP = 0.07, CLEAR = 0.035;

const micro = (/** @type {number} */ mm) => Math.round(mm * 1000) / 1000;
const isDoubtful = (/** @type {number} */ distance) => distance > -DEEP && distance < CLEAR;

/** @param {Item} one @param {Item} other */
const between = (one, other) => apart(one.line, other.line) - one.radius - other.radius;
/** @param {Item} item @param {Hole} hole */
const toHole = (item, { place, radius }) => toSegment(place, item.line) - item.radius - radius;
/** @param {Hole} one @param {Hole} other */
const ofHoles = (one, other) => Math.hypot(one.place[0] - other.place[0], one.place[1] - other.place[1]) - one.radius - other.radius;

const passes = (/** @type {Hole} */ { from, to }, /** @type {number} */ layer) => from <= layer && layer <= to;

/** @param {() => number} chance @param {number} copper */
function randomItems(chance, copper) {
  /** @type {Item[]} */
  const items = [];
  for (let tries = 0; tries < TRIES; tries++) {
    const layer = Math.floor(chance() * copper), isDisc = chance() < 0.55, [x, y] = [chance(), chance()].map((part) => micro(0.8 + (SIDE - 1.6) * part));
    const length = 0.3 + 2.5 * chance(), angle = 7 * chance(), radius = micro(isDisc ? 0.12 + 0.4 * chance() : 0.05 + 0.15 * chance());
    const end = /** @type {Place} */ ([micro(x + length * Math.cos(angle)), micro(y + length * Math.sin(angle))]);
    const item = { layer, line: /** @type {Place[]} */ ([[x, y], isDisc ? [x, y] : end]), radius, isDisc };
    if (end.some((value) => value < 0.6 || value > SIDE - 0.6)) continue;
    if (!items.some((other) => other.layer === layer && isDoubtful(between(item, other)))) items.push(item);
  }
  return items;
}

/** @param {() => number} chance @param {number} copper @param {Item[]} items */
function randomHoles(chance, copper, items) {
  /** @type {Hole[]} */
  const holes = [];
  for (let tries = 0; tries < 12; tries++) {
    const [from, to] = [Math.floor(chance() * copper), Math.floor(chance() * copper)].sort((one, other) => one - other);
    const { line: [[x, y]], radius } = items[Math.floor(chance() * items.length)], off = 0.3 * radius * chance(), way = 7 * chance();
    const place = /** @type {Place} */ ([micro(x + off * Math.cos(way)), micro(y + off * Math.sin(way))]), hole = { place, radius: micro(0.1 + 0.15 * chance()), from, to };
    const isNear = items.some((item) => passes(hole, item.layer) && isDoubtful(toHole(item, hole)));
    if (!isNear && !holes.some((other) => ofHoles(hole, other) < CLEAR)) holes.push(hole);
  }
  return holes;
}

/**
 * Which items hang together: the number of each one's net.
 * @param {Item[]} items
 * @param {Hole[]} holes
 */
function netsOf(items, holes) {
  const nets = items.map((_, at) => at);
  const join = (/** @type {number} */ one, /** @type {number} */ other) => {
    const [kept, gone] = [nets[one], nets[other]];
    nets.forEach((net, at) => {
      if (net === gone) nets[at] = kept;
    });
  };
  items.forEach((item, at) => items.slice(0, at).forEach((other, before) => {
    if (item.layer === other.layer && between(item, other) < 0) join(before, at);
  }));
  for (const hole of holes) {
    const touched = items.flatMap((item, at) => (passes(hole, item.layer) && toHole(item, hole) < 0 ? [at] : []));
    touched.forEach((at) => join(touched[0], at));
  }
  return nets;
}

/**
 * The points: a disc has the name of its net, but some have another one's.
 * @param {() => number} chance
 * @param {Item[]} items
 * @param {number[]} nets
 */
function randomPoints(chance, items, nets) {
  const discs = items.flatMap(({ isDisc }, at) => (isDisc ? [at] : []));
  return discs.map((item, number) => {
    const named = chance() < 0.15 ? nets[discs[Math.floor(chance() * discs.length)]] : nets[item];
    return { item, net: `N${named}`, name: `P${number}-1` };
  });
}

/**
 * A board at random.
 * @param {() => number} chance
 */
export function randomBoard(chance) {
  const copper = 1 + Math.floor(4 * chance()), items = randomItems(chance, copper), holes = randomHoles(chance, copper, items);
  const nets = netsOf(items, holes);
  return { copper, items, holes, nets, points: randomPoints(chance, items, nets) };
}

/**
 * Its files: copper with attributes, holes by what they pass, and a netlist.
 * @param {ReturnType<typeof randomBoard>} board
 */
export function filesOf({ copper, items, holes, points }) {
  const nameOf = (/** @type {number} */ layer) => (layer === 0 ? "Top" : layer === copper - 1 ? "Bot" : "Inr");
  const pointOf = new Map(points.map((point) => [point.item, point]));
  const texts = Array.from({ length: copper }, (_, layer) => {
    const own = items.flatMap((item, at) => (item.layer === layer ? [{ item, point: pointOf.get(at) }] : []));
    const shapes = own.map(({ item }) => `C,${micro(2 * item.radius)}`);
    const lines = own.flatMap(({ item, point }, at) => {
      const words = item.isDisc ? flash(10 + at, item.line[0]) : draw(10 + at, ...item.line);
      return point ? [`%TO.N,${point.net}*%`, `%TO.P,${point.name.replace("-", ",")}*%`, words, "%TD*%"] : [words];
    });
    return [`copper${layer + 1}.gbr`, gerber(`Copper,L${layer + 1},${nameOf(layer)}`, shapes, ...lines)];
  });
  const spanOf = (/** @type {Hole} */ { from, to }) => `${from + 1},${to + 1}`;
  const drills = [...new Set(holes.map(spanOf))].map((span, at) => {
    const tools = holes.filter((hole) => spanOf(hole) === span).map(({ place, radius }) => ({ diameter: 2 * radius, hits: [place] }));
    return [`holes${at + 1}.drl`, drill(`Plated,${span},${span === `1,${copper}` ? "PTH" : "Blind"}`, tools)];
  });
  const records = points.map(({ item, net, name }) => {
    const { layer, line: [[x, y]], radius } = items[item], [part, pin] = name.split("-");
    return { code: 327, net, part, pin, access: layer + 1, x, y, width: 2 * radius, height: 0 };
  });
  return Object.fromEntries([...texts, ...drills, ["nets.d356", netlist(records)]]);
}

/**
 * The points by what they share: [[name, name ..] ..], each sorted.
 * @param {{key: *, name: string}[]} list
 */
function grouped(list) {
  const groups = new Map();
  for (const { key, name } of list) groups.set(key, [...groups.get(key) ?? [], name].sort());
  return groups;
}

/**
 * The opens, each with its parts as names of points, and the shorts, each with its nets.
 * @param {ReturnType<typeof randomBoard>} board
 */
export function differencesOf({ nets, points }) {
  const groupsOf = (/** @type {{key: *, name: string}[]} */ list) => [...grouped(list).values()];
  const opens = [...new Set(points.map(({ net }) => net))].sort().flatMap((net) => {
    const own = points.filter((point) => point.net === net), parts = groupsOf(own.map(({ item, name }) => ({ key: nets[item], name })));
    return parts.length > 1 ? [{ net, parts: parts.map((names) => names.join(" ")).sort() }] : [];
  });
  const shared = groupsOf(points.map(({ item, net }) => ({ key: nets[item], name: net }))).map((own) => [...new Set(own)]);
  return { opens, shorts: shared.filter((own) => own.length > 1).map((own) => own.join(" ")).sort() };
}

/**
 * The least distance of each pair by its key.
 * @param {Map<string, number>} found
 * @param {string} key
 * @param {number} value
 */
function keepLeast(found, key, value) {
  found.set(key, Math.min(found.get(key) ?? Infinity, value));
}

/**
 * Copper to copper of two nets on a layer, by `layer net net`.
 * @param {ReturnType<typeof randomBoard>} board
 */
export function gapsOf({ items, nets }) {
  const found = new Map();
  items.forEach((item, at) => items.slice(0, at).forEach((other, before) => {
    if (item.layer === other.layer && nets[at] !== nets[before]) {
      keepLeast(found, [item.layer, ...[nets[at], nets[before]].sort((one, two) => one - two)].join(" "), between(item, other));
    }
  }));
  return found;
}

/**
 * Hole to hole, by the numbers of both.
 * @param {ReturnType<typeof randomBoard>} board
 */
export function holeGapsOf({ holes }) {
  const found = new Map();
  holes.forEach((hole, at) => holes.slice(0, at).forEach((other, before) => found.set(`${before} ${at}`, ofHoles(hole, other))));
  return found;
}

/**
 * A hole to copper of another net on a layer, by `layer hole`.
 * @param {ReturnType<typeof randomBoard>} board
 */
export function holesToCopper({ items, holes, nets }) {
  const found = new Map();
  holes.forEach((hole, number) => {
    const own = items.findIndex((item) => passes(hole, item.layer) && toHole(item, hole) < 0);
    items.forEach((item, at) => {
      if (passes(hole, item.layer) && (own < 0 || nets[at] !== nets[own])) keepLeast(found, `${item.layer} ${number}`, toHole(item, hole));
    });
  });
  return found;
}

// Where a ray from a place is in an item, [from, to]: of a convex one that is one stretch, of its two discs and its strip together.
function stretchOf({ line: [first, last], radius }, [x, y], [right, up]) {
  let from = Infinity, to = -Infinity;
  const take = (/** @type {number} */ low, /** @type {number} */ high) => {
    if (low > high) return;
    from = Math.min(from, low);
    to = Math.max(to, high);
  };
  for (const [middleX, middleY] of [first, last]) {
    const on = (middleX - x) * right + (middleY - y) * up, aside = (middleX - x) * up - (middleY - y) * right;
    const square = radius * radius - aside * aside;
    if (square >= 0) take(on - Math.sqrt(square), on + Math.sqrt(square));
  }
  const length = Math.hypot(last[0] - first[0], last[1] - first[1]);
  if (length) {
    const alongX = (last[0] - first[0]) / length, alongY = (last[1] - first[1]) / length;
    const slabs = [[alongX, alongY, 0, length], [-alongY, alongX, -radius, radius]];
    let [low, high] = [-Infinity, Infinity];
    for (const [normalX, normalY, least, most] of slabs) {
      const start = (x - first[0]) * normalX + (y - first[1]) * normalY, speed = right * normalX + up * normalY;
      if (Math.abs(speed) < 1e-12) {
        if (start < least || start > most) low = Infinity;
        continue;
      }
      const [one, other] = [(least - start) / speed, (most - start) / speed].sort((a, b) => a - b);
      [low, high] = [Math.max(low, one), Math.min(high, other)];
    }
    take(low, high);
  }
  return [from, to];
}

/** How far copper reaches without a gap from a place on along a ray. */
function reachOf(items, place, ray, start) {
  let reach = start;
  for (let isMore = true; isMore;) {
    isMore = false;
    for (const item of items) {
      const [from, to] = stretchOf(item, place, ray);
      if (from <= reach + 1e-9 && to > reach + 1e-9) {
        reach = to;
        isMore = true;
      }
    }
  }
  return reach;
}

/**
 * The annular ring of each hole on each layer where copper touches it, by `layer hole`: 0 where it breaks out.
 * @param {ReturnType<typeof randomBoard>} board
 */
export function ringsOf({ copper, items, holes }) {
  const found = new Map();
  holes.forEach((hole, number) => {
    for (let layer = 0; layer < copper; layer++) {
      const touched = items.filter((item) => item.layer === layer && toHole(item, hole) < 1);
      if (!passes(hole, layer) || !touched.some((item) => toHole(item, hole) < 0)) continue;
      for (let at = 0; at < RAYS; at++) {
        const ray = [Math.cos(2 * Math.PI * at / RAYS), Math.sin(2 * Math.PI * at / RAYS)];
        keepLeast(found, `${layer} ${number}`, reachOf(touched, hole.place, ray, hole.radius) - hole.radius);
      }
    }
  });
  return found;
}

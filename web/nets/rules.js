// Rules of a house that makes boards: what is less than it asks for, with its place and its value.

import { Around } from "./around.js";
import { nearSteps } from "./clearances.js";
import { thinSteps } from "./necks.js";
import { HoleCheck } from "./hole_rules.js";
import { elementAt } from "./lists.js";
import { between, betweenRims, fromRim, throughDisc } from "./measures.js";
import { MaskCheck } from "./mask_rules.js";
import { RULES } from "./rule_table.js";
import { nearHoles, segmentsOf } from "./strokes.js";

/**
 * A place where a rule is broken.
 * @typedef {object} Breach
 * @property {string} rule its name
 * @property {number} value in nm
 * @property {number} within how exact the value is, in nm
 * @property {number | null} layer of copper, by its place in the stack; null of holes alone
 * @property {{x: number, y: number}} from
 * @property {{x: number, y: number} | null} to where the measure ends
 * @property {import("./measures.js").Measure | null} measure from edge to edge, as it is drawn; null where nothing is near enough
 * @property {number[]} nets of copper
 * @property {string[]} sources of holes, as `plated 3`
 * @property {string[]} [shown] the layers of mask, ink or paste, or the pad, that it is of
 */

/**
 * What is checked.
 * @typedef {object} Checked
 * @property {import("./nets.js").Nets} nets
 * @property {import("./grid.js").Grid} grid
 * @property {import("./strokes.js").Hole[]} holes
 * @property {import("./nets.js").Holes[]} spans the layers of holes, as the nets have them; a hole's `layer` is one of these, or greater
 * @property {[number, number][][]} outline its closed lines, in nm
 * @property {import("./mask_rules.js").Side[]} [sides] mask, ink and paste on the outer copper
 * @property {import("./points.js").NetPoint[]} [points] of a netlist or of attributes
 */

class Check {
  /** @param {Checked} checked */
  constructor({ nets, grid, holes, spans, outline }) {
    this.nets = nets;
    this.grid = grid;
    this.holes = holes;
    this.spans = spans;
    this.outline = outline;
    this.within = Math.ceil(grid.pitch * Math.SQRT2);
    this.arounds = nets.copper.map((_, layer) => new Around(nets, layer));
  }

  /**
   * A stroke in pixels.
   * @param {[[number, number], [number, number]]} segment
   * @param {number} radius
   */
  stroke([[x0, y0], [x1, y1]], radius) {
    const { grid } = this, column = (/** @type {number} */ x) => (x - grid.x) / grid.pitch - 0.5;
    const row = (/** @type {number} */ y) => grid.height - 0.5 - (y - grid.y) / grid.pitch;
    return { x0: column(x0), y0: row(y0), x1: column(x1), y1: row(y1), radius: radius / grid.pitch };
  }

  /** @param {number} column @param {number} row */
  place(column, row) {
    return this.grid.placeOf(column, row);
  }

  /**
   * The net of a hole, by the pixels along its line; -1 where it touches no copper.
   * @param {import("./strokes.js").Hole} hole
   */
  netOf({ line, layer, isPlated }) {
    if (!isPlated || layer >= this.spans.length) return -1;
    for (const [x, y] of line) {
      const net = this.nets.netAt(this.nets.copper.length + layer, this.grid.columnOf(x), this.grid.rowOf(y));
      if (net >= 0) return net;
    }
    return -1;
  }

  /**
   * The copper layers that a hole passes.
   * @param {import("./strokes.js").Hole} hole
   */
  layersOf({ layer, isPlated }) {
    const { from, to } = (isPlated && this.spans[layer]) || { from: 0, to: this.nets.copper.length - 1 };
    return Array.from({ length: to - from + 1 }, (_, at) => from + at);
  }

  /** @param {number} limit in nm @param {import("./strokes.js").Hole[]} holes @returns {Breach[]} */
  ring(limit, holes) {
    const most = limit / this.grid.pitch;
    return holes.flatMap((hole) => {
      const net = this.netOf(hole);
      if (net < 0) return [];
      return this.layersOf(hole).flatMap((layer) => this.ringOn(hole, net, layer, most));
    });
  }

  /**
   * @param {import("./strokes.js").Hole} hole
   * @param {number} net
   * @param {number} layer
   * @param {number} most
   * @returns {Breach[]}
   */
  ringOn(hole, net, layer, most) {
    const around = elementAt(this.arounds, layer), { pitch } = this.grid;
    /** @type {Breach | null} */
    let worst = null;
    for (const segment of segmentsOf(hole.line)) {
      const stroke = this.stroke(segment, hole.radius), white = around.nearestWhite(stroke, most);
      if (!white || this.isInside(hole, segment, white)) continue;
      const value = Math.max(0, white.distance) * pitch;
      if (worst && worst.value <= value) continue;
      // Copper of the hole's net has to be there, at its rim or inside.
      if (!around.nearestCopper(stroke, 1, (other) => other === net)) continue;
      const to = this.place(white.column, white.row);
      worst = { rule: "ring", value, within: this.within, layer, from: { x: segment[0][0], y: segment[0][1] }, to,
        measure: fromRim(segment, hole.radius, to, value), nets: [net], sources: [hole.source] };
    }
    return worst && worst.value < most * pitch ? [worst] : [];
  }

  /**
   * Whether a white pixel lies in another part of the same rout.
   * @param {import("./strokes.js").Hole} hole
   * @param {[[number, number], [number, number]]} segment
   * @param {{column: number, row: number}} white
   */
  isInside({ line, radius }, segment, { column, row }) {
    if (line.length < 3) return false;
    const { x, y } = this.place(column, row);
    return segmentsOf(line).some((other) => (other[0] !== segment[0] || other[1] !== segment[1])
      && distanceTo(other, x, y) < radius - this.grid.pitch);
  }

  /** @param {number} limit in nm @param {number} layer @returns {import("./steps.js").Steps<Breach[]>} */
  * gap(limit, layer) {
    const { pitch } = this.grid, found = yield* nearSteps(this.nets, limit / pitch, layer);
    return found.map(({ nets, from, to, distance }) => {
      const ends = { from: this.place(...from), to: this.place(...to) }, value = distance * pitch;
      return { rule: "gap", value, within: this.within, layer, ...ends, measure: between(ends.from, ends.to, value), nets, sources: [] };
    });
  }

  /** @param {number} limit in nm @param {import("./strokes.js").Hole[]} holes @returns {Breach[]} */
  holeToCopper(limit, holes) {
    const { pitch } = this.grid, most = limit / pitch;
    return holes.flatMap((hole) => {
      const net = this.netOf(hole);
      return this.layersOf(hole).flatMap((layer) => {
        /** @type {(import("./around.js").Found & {net: number}) | null} */
        let nearest = null;
        for (const segment of segmentsOf(hole.line)) {
          const found = elementAt(this.arounds, layer).nearestCopper(this.stroke(segment, hole.radius), most, (other) => other !== net);
          if (found && (!nearest || found.distance < nearest.distance)) nearest = found;
        }
        const [place] = hole.line;
        if (!place || !nearest || nearest.distance >= most) return [];
        const to = this.place(nearest.column, nearest.row), value = Math.max(0, nearest.distance) * pitch;
        return [{ rule: "hole-copper", value, within: this.within, layer, from: { x: place[0], y: place[1] }, to,
          measure: fromRim(hole.line, hole.radius, to, value), nets: [nearest.net], sources: [hole.source] }];
      });
    });
  }

  /** @param {number} limit in nm @param {number} layer @returns {Breach[]} */
  toOutline(limit, layer) {
    const { pitch } = this.grid, most = limit / pitch;
    return this.outline.flatMap((line) => {
      /** @type {(import("./around.js").Found & {net: number}) | null} */
      let nearest = null;
      for (const segment of segmentsOf(line)) {
        const found = elementAt(this.arounds, layer).nearestCopper(this.stroke(segment, 0), nearest ? Math.min(most, nearest.distance) : most, () => true);
        if (found && (!nearest || found.distance < nearest.distance)) nearest = found;
      }
      if (!nearest || nearest.distance >= most) return [];
      const from = this.place(nearest.column, nearest.row), value = Math.max(0, nearest.distance) * pitch;
      return [{ rule: "outline", value, within: this.within, layer, from, to: null, measure: fromRim(line, 0, from, value), nets: [nearest.net],
        sources: [] }];
    });
  }

  /** @param {number} limit in nm @returns {Breach[]} */
  holeToHole(limit) {
    return nearHoles(this.holes, limit).map(({ holes, distance, from, to }) => {
      const ends = { from: { x: from[0], y: from[1] }, to: { x: to[0], y: to[1] } };
      return { rule: "hole-hole", value: distance, within: 1, layer: null, ...ends, measure: betweenRims(ends.from, ends.to, holes[0].radius, distance),
        nets: [], sources: holes.map(({ source }) => source) };
    });
  }

  /** @param {number} limit in nm @param {number} layer @returns {import("./steps.js").Steps<Breach[]>} */
  * width(limit, layer) {
    const { grid } = this, { pitch } = grid, found = yield* thinSteps(this.nets, limit / pitch, layer);
    return found.map(({ net, column, row, width, disc }) => ({ rule: "width", value: width * pitch,
      within: this.within, layer, from: this.place(column, row), to: null, measure: grid.measureOf(throughDisc(disc, width)), nets: [net], sources: [] }));
  }
}

/**
 * @param {[[number, number], [number, number]]} segment
 * @param {number} x
 * @param {number} y
 */
function distanceTo([[x0, y0], [x1, y1]], x, y) {
  const dx = x1 - x0, dy = y1 - y0, square = dx * dx + dy * dy;
  const part = square ? Math.min(1, Math.max(0, ((x - x0) * dx + (y - y0) * dy) / square)) : 0;
  return Math.hypot(x - x0 - part * dx, y - y0 - part * dy);
}

/** So many holes are looked at as one part. */
const SOME_HOLES = 500;

/**
 * Work that is short enough to be one step.
 * @param {(limit: number) => Breach[]} find
 */
const inOneStep = (find) => function* (/** @type {number} */ limit) {
  yield;
  return find(limit);
};

/** A board whose rules are checked one after another, each in parts, so that a person may stop between two of them. */
export class RuleCheck {
  /** @param {Checked} checked */
  constructor(checked) {
    const check = new Check(checked), mask = new MaskCheck(checked), holes = new HoleCheck(checked);
    const layers = checked.nets.copper.map((_, layer) => layer), count = Math.ceil(checked.holes.length / SOME_HOLES);
    const some = Array.from({ length: count }, (_, at) => checked.holes.slice(at * SOME_HOLES, (at + 1) * SOME_HOLES));
    /** @type {Record<string, ((limit: number) => import("./steps.js").Steps<Breach[]>)[]>} */
    const found = { ring: some.map((own) => inOneStep((limit) => check.ring(limit, own))),
      gap: layers.map((layer) => (limit) => check.gap(limit, layer)),
      "hole-copper": some.map((own) => inOneStep((limit) => check.holeToCopper(limit, own))),
      outline: layers.map((layer) => inOneStep((limit) => check.toOutline(limit, layer))),
      "hole-hole": [inOneStep((limit) => check.holeToHole(limit))], width: layers.map((layer) => (limit) => check.width(limit, layer)),
      "mask-web": [(limit) => mask.web(limit)], "mask-bare": [(limit) => mask.bare(limit)], "silk-bare": [(limit) => mask.ink(limit)],
      paste: [(limit) => mask.paste(limit)], "hole-pad": [inOneStep((limit) => holes.holePad(limit))],
      "pad-hole": [inOneStep((limit) => holes.padHole(limit))], doubled: [inOneStep((limit) => holes.doubled(limit))],
      overlap: [inOneStep((limit) => holes.overlap(limit))] };
    this.found = new Map(Object.entries(found));
  }

  /**
   * What breaks a rule, in parts that are no rule's whole answer. A part may have no place at all: it is where a person may stop.
   * @param {string} rule
   * @param {number} limit in nm
   * @returns {Generator<Breach[]>}
   */
  * parts(rule, limit) {
    for (const part of this.found.get(rule) ?? []) {
      const steps = part(limit);
      let next = steps.next();
      for (; !next.done; next = steps.next()) yield [];
      yield next.value;
    }
  }
}

/**
 * What breaks rules, from the parts of each: rule by rule, the worst place first, and a pair of holes once.
 * @param {Map<string, Breach[]>} found by the rules' names
 * @returns {Breach[]}
 */
export function inOrder(found) {
  const worst = (/** @type {string} */ name) => (RULES.get(name)?.isMost ? -1 : 1);
  return withoutRepeats([...RULES.keys()].flatMap((name) => [...found.get(name) ?? []].sort((one, other) => worst(name) * (one.value - other.value))));
}

/**
 * Where rules are broken, rule by rule, the worst place first.
 * @param {Checked} checked
 * @param {Map<string, number>} limits in nm, by the rules' names
 * @returns {Breach[]}
 */
export function breachesOf(checked, limits) {
  const check = new RuleCheck(checked);
  return inOrder(new Map([...RULES.keys()].flatMap((rule) => {
    const limit = limits.get(rule);
    return limit === undefined ? [] : [/** @type {[string, Breach[]]} */ ([rule, [...check.parts(rule, limit)].flat()])];
  })));
}

/** Rules of two holes: a pair that breaks one of them is left out of those after it. */
const OF_PAIRS = ["doubled", "overlap", "hole-hole"];

/**
 * @param {Breach[]} breaches
 * @returns {Breach[]}
 */
function withoutRepeats(breaches) {
  /** @type {Map<string, number>} which rule each pair broke first */
  const first = new Map();
  const keyOf = (/** @type {Breach} */ { sources }) => sources.join("\n");
  OF_PAIRS.forEach((name, at) => {
    for (const breach of breaches.filter(({ rule }) => rule === name)) if (!first.has(keyOf(breach))) first.set(keyOf(breach), at);
  });
  return breaches.filter((breach) => !OF_PAIRS.includes(breach.rule) || first.get(keyOf(breach)) === OF_PAIRS.indexOf(breach.rule));
}

// The nets of a board at one pitch, and what differs from those that it should have.

import {
  Keeping, MOST_FULL, RULES, Report, breachWords, breachesOf, compareNets, counted, mm, nearPlaces, shareOf, thinPlaces, throughDisc,
} from "../../web/nets/index.js";
import { progress } from "./nets_progress.js";
import { sidesOf, uncheckedOf } from "./nets_sides.js";

/** @typedef {import("../../web/nets/index.js").Bare} Bare */
/** @typedef {import("../../web/nets/index.js").Breach} Breach */
/** @typedef {import("../../web/nets/index.js").Kept} Kept */
/** @typedef {import("../../web/nets/index.js").Measure} Measure */
/** @typedef {import("../../web/nets/index.js").Open} Open */
/** @typedef {import("../../web/nets/index.js").Short} Short */
/** @typedef {{layer: number, x: number, y: number}} Place of copper, by its place in the stack, in nm */
/** @typedef {{names: [string, string], from: Place, to: Place, distance: number}} Gap two nets that are near, and how near in nm */
/** @typedef {{name: string, place: Place, width: number, measure: Measure}} Neck thin copper, and its width in nm */

/** The side of the squares in which copper's share is counted, in nm. */
const SQUARE = 10_000_000;
/** @type {ReturnType<typeof compareNets>} */
const NONE = { opens: [], shorts: [], bare: [], loose: [], names: new Map() };

/** What a pitch answers. */
export class Answer {
  /**
   * @param {import("./nets_board.js").NetsBoard} board
   * @param {import("./nets_truth.js").Truth} truth
   * @param {import("../../web/board/index.js").PlotWindow} window
   * @param {string} what of the window, in words
   * @param {{gap: number | null, neck: number | null, mayTouch: [string, string][], limits: Map<string, number>}} options lengths
   *   in nm
   */
  constructor(board, truth, window, what, { gap, neck, mayTouch, limits }) {
    this.window = window;
    this.what = what;
    this.labels = board.stack.copper.map(({ layer }) => layer.name);
    const { nets, apart, grid } = board.nets(window);
    this.nets = nets;
    this.grid = grid;
    this.points = truth.points();
    progress("comparing");
    this.found = truth.isNone ? NONE : compareNets(nets, grid, this.points, { apart, mayTouch });
    this.report = new Report(this.labels, window.pitch);
    this.keeping = new Keeping(this.labels, this.found.names);
    if (gap !== null || neck !== null) progress("measuring gaps and widths");
    this.limits = limits;
    if (limits.size) progress("checking the rules");
    this.breaches = !limits.size ? [] : breachesOf({ nets, grid, holes: board.holes(), spans: nets.holes, outline: board.outlines.closed,
      points: this.points, sides: sidesOf(board, window, this.points) }, limits);
    this.unchecked = uncheckedOf(board, limits, this.points);
    // The box of the outline, else that of the copper and the holes.
    const box = this.boxOf(board.sides());
    this.shares = nets.copper.map((runs) => shareOf(runs, box, SQUARE / window.pitch));
    this.gaps = gap === null ? [] : nearPlaces(nets, gap / window.pitch).map((near) => this.gapOf(near));
    this.necks = neck === null ? [] : thinPlaces(nets, neck / window.pitch).map((thin) => this.neckOf(thin));
  }

  get hasFault() {
    const { opens, shorts, bare } = this.found;
    return [opens, shorts, bare, this.gaps, this.necks, this.breaches].some((list) => list.length > 0);
  }

  // The pixels of a box, the last column and row not included.
  /** @param {import("../../web/board/index.js").Box} box */
  boxOf({ left, low, right, high }) {
    const { x, y, pitch, width, height } = this.grid;
    /** @param {number} at @param {number} most */
    const within = (at, most) => Math.min(most, Math.max(0, at));
    const first = within(Math.floor((left - x) / pitch), width - 1), top = within(height - Math.ceil((high - y) / pitch), height - 1);
    return { left: first, top, right: Math.max(first + 1, within(Math.ceil((right - x) / pitch), width)),
      bottom: Math.max(top + 1, within(height - Math.floor((low - y) / pitch), height)) };
  }

  /** @param {number} layer @param {[column: number, row: number]} pixel @returns {Place} */
  place(layer, [column, row]) {
    return { layer, ...this.grid.placeOf(column, row) };
  }

  /** @param {number} net @param {Place} place @returns {string} */
  nameOf(net, place) {
    return this.keeping.nameOf(net, place);
  }

  /** @param {ReturnType<typeof nearPlaces>[number]} near @returns {Gap} */
  gapOf({ layer, nets: [one, other], from, to, distance }) {
    const isInOrder = this.nets.netAt(layer, ...from) === one;
    const start = this.place(layer, isInOrder ? from : to), end = this.place(layer, isInOrder ? to : from);
    return { names: [this.nameOf(one, start), this.nameOf(other, end)], from: start, to: end, distance: distance * this.window.pitch };
  }

  /** @param {ReturnType<typeof thinPlaces>[number]} thin @returns {Neck} */
  neckOf({ layer, net, column, row, width, disc }) {
    const place = this.place(layer, [column, row]);
    return { name: this.nameOf(net, place), place, width: width * this.window.pitch, measure: this.grid.measureOf(throughDisc(disc, width)) };
  }

  /**
   * Takes the findings away that are accepted.
   * @param {import("./nets_accepted.js").Accepted} accepted
   */
  accept(accepted) {
    const { found } = this;
    this.found = { ...found, opens: found.opens.filter((open) => !accepted.has(this.keptOpen(open))),
      shorts: found.shorts.filter((short) => !accepted.has(this.keptShort(short))), bare: found.bare.filter((bare) => !accepted.has(this.keptBare(bare))) };
    this.gaps = this.gaps.filter((gap) => !accepted.has(this.keptGap(gap)));
    this.necks = this.necks.filter((neck) => !accepted.has(this.keptNeck(neck)));
    this.breaches = this.breaches.filter((breach) => !accepted.has(this.keptBreach(breach)));
  }

  /** The findings that are faults, as they are kept. */
  kept() {
    const { opens, shorts, bare } = this.found;
    return [...opens.map((open) => this.keptOpen(open)), ...shorts.map((short) => this.keptShort(short)),
      ...bare.map((point) => this.keptBare(point)), ...this.gaps.map((gap) => this.keptGap(gap)), ...this.necks.map((neck) => this.keptNeck(neck)),
      ...this.breaches.map((breach) => this.keptBreach(breach))];
  }

  /** @param {Breach} breach @returns {string[]} */
  namesOf(breach) {
    return this.keeping.namesOf(breach);
  }

  /** @param {Breach} breach @returns {Kept} */
  keptBreach(breach) {
    return this.keeping.breach(breach);
  }

  /** @param {Open} open @returns {Kept} */
  keptOpen(open) {
    return this.keeping.open(open);
  }

  /** @param {Short} short @returns {Kept} */
  keptShort(short) {
    return this.keeping.short(short);
  }

  /** @param {Bare} bare @returns {Kept} */
  keptBare(bare) {
    return this.keeping.bare(bare);
  }

  /** @param {Gap} gap @returns {Kept} */
  keptGap({ names, from }) {
    return this.keeping.at("gap", names, from);
  }

  /** @param {Neck} neck @returns {Kept} */
  keptNeck({ name, place }) {
    return this.keeping.at("neck", [name], place);
  }

  /** The findings in lines for people: of each kind the first ones, and how many more there are. */
  lines() {
    const { opens, shorts, bare, loose } = this.found, { report } = this;
    /**
     * @template T
     * @param {T[]} list
     * @param {string} what
     * @param {(finding: T) => string[]} told
     */
    const some = (list, what, told) => {
      const more = list.length - MOST_FULL;
      return [...list.slice(0, MOST_FULL).map(told), ...(more > 0 ? [[`and ${counted(more, `more ${what}`)}`]] : [])];
    };
    return [...some(opens, "open", (open) => report.open(open)), ...some(shorts, "short", (short) => report.short(short)),
      ...some(bare, "point", (point) => report.bare(point)), ...some(loose, "piece", (copper) => report.loose(copper)),
      ...[...this.limits].flatMap(([rule, limit]) => some(this.breaches.filter((breach) => breach.rule === rule), RULES.get(rule)?.title ?? rule,
        (breach) => [breachWords(breach, limit, this.namesOf(breach), this.labels)])),
      ...some(this.gaps, "gap", (gap) => report.clearance(gap)), ...some(this.necks, "neck", (neck) => report.neck(neck))];
  }

  summary() {
    const { opens, shorts, bare, loose } = this.found;
    return `${counted(opens.length, "open")}, ${counted(shorts.length, "short")}, ${
      counted(bare.length, "point")} without copper, ${counted(loose.length, "piece")} of copper without a point`;
  }

  /** The findings as plain values; lengths in mm. */
  findings() {
    /** @param {Place} place */
    const place = ({ layer, x, y }) => ({ layer: this.labels[layer], x: mm(x), y: mm(y) });
    /** @param {import("../../web/nets/index.js").NetPoint} point */
    const point = ({ net, name, source, x, y, layers }) => ({ net, name, source, x: mm(x), y: mm(y),
      layers: layers.map((layer) => this.labels[layer]) });
    /** @param {number | undefined} nm */
    const length = (nm) => (nm === undefined ? null : mm(nm));
    const { opens, shorts, bare, loose } = this.found, exact = mm(Math.ceil(this.window.pitch * Math.SQRT2));
    return {
      opens: opens.map(({ net, parts, gaps }) => ({ net, parts: parts.map(({ points }) => points.map(point)),
        gaps: gaps.map(({ part, other, kind, from, to, distance, over }) => ({ part, other, kind, from: place(from),
          to: place(to), distance: mm(distance), within: exact, over: over && place(over) })) })),
      shorts: shorts.map(({ nets, touching }) => ({ nets: nets.map(({ net, points }) => ({ net, points: points.map(point) })),
        touching: touching.map(({ nets: two, place: at, width }) => ({ nets: two, place: place(at), width: mm(width),
          within: exact })) })),
      withoutCopper: bare.map(({ point: found }) => point(found)),
      withoutPoint: loose.map(({ place: at, area }) => ({ place: place(at), area })),
      gaps: this.gaps.map(({ names, from, to, distance }) => ({ names, from: place(from), to: place(to),
        distance: mm(distance), within: exact })),
      rules: this.breaches.map((breach) => ({ rule: breach.rule, value: mm(breach.value), within: mm(breach.within),
        limit: length(this.limits.get(breach.rule)), layer: breach.layer === null ? null : this.labels[breach.layer], x: mm(breach.from.x), y: mm(breach.from.y),
        to: breach.to && { x: mm(breach.to.x), y: mm(breach.to.y) }, holes: breach.sources, nets: this.namesOf(breach),
        of: breach.shown ?? [] })),
      rulesNotChecked: this.unchecked,
      copperShare: this.shares.map(({ all, rows }, layer) => ({ layer: this.labels[layer], all, rows })),
      necks: this.necks.map(({ name, place: at, width }) => ({ name, place: place(at), width: mm(width), within: exact })),
    };
  }

  // What the answer says, in lines without places, which move with the window.
  get gist() {
    const { opens, shorts, bare } = this.found;
    return [`${counted(this.nets.count, "net")} in ${counted(this.nets.pieces, "piece")}`,
      ...opens.map(({ net, parts }) => `open: ${net} is in ${parts.length} parts`),
      ...shorts.map(({ nets }) => `short: ${nets.map(({ net }) => net).join(" and ")}`),
      ...bare.map(({ point }) => `no copper: ${point.name} (${point.source})`)];
  }
}

/** @param {Short} short */
const netsOfShort = ({ nets }) => nets.map(({ net }) => net).join(" and ");

// Shorts that both have, whose places or widths are farther apart than the pixels of both allow.
/** @param {Answer} first @param {Answer} other */
function movedShorts(first, other) {
  const exact = Math.SQRT2 * (first.window.pitch + other.window.pitch);
  const known = new Map(first.found.shorts.map((short) => /** @type {const} */ ([netsOfShort(short), short.touching[0]])));
  return other.found.shorts.flatMap((short) => {
    const one = known.get(netsOfShort(short)), [now] = short.touching;
    if (!one || !now) return [];
    const away = Math.hypot(one.place.x - now.place.x, one.place.y - now.place.y), wider = Math.abs(one.width - now.width);
    if (one.place.layer === now.place.layer && away <= exact && wider <= exact) return [];
    return [`short: ${netsOfShort(short)} touch ${mm(away)} mm from there, ${mm(now.width)} mm wide in place of ${mm(one.width)}`];
  });
}

/**
 * What one answer says and another does not.
 * @param {Answer} first
 * @param {Answer} other
 * @returns {string[]}
 */
export function differences(first, other) {
  const before = first.gist, now = other.gist;
  return [...now.filter((line) => !before.includes(line)).map((line) => `now ${line}`),
    ...before.filter((line) => !now.includes(line)).map((line) => `no longer ${line}`), ...movedShorts(first, other)];
}

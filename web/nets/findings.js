// All findings of a board as one list: what differs from its nets, and where rules are broken, by kind, the worst first. Each has
// its words, its measure, and what it is kept by if somebody accepts it.

import { elementAt } from "./lists.js";
import { RULES } from "./rule_table.js";
import { Report } from "./report.js";
import { mm, placeWords } from "./words.js";

/**
 * A finding.
 * @typedef {object} Finding
 * @property {string} kind `short`, `open`, `no copper`, or a rule's name
 * @property {number | null} value in nm; null of one that has none
 * @property {import("./measures.js").Measure | null} measure from edge to edge
 * @property {{layer: number | null, x: number, y: number}} place
 * @property {string[]} lines in words, the first line alone of most
 * @property {string} short a few words: what it is between
 * @property {string[]} shown the layers of mask, ink or paste that it is of
 * @property {import("./accepted.js").Kept} kept without a reason
 *
 * What was found of a board.
 * @typedef {object} FoundOfBoard
 * @property {import("./compare.js").Open[]} opens
 * @property {import("./compare.js").Short[]} shorts
 * @property {import("./compare.js").Bare[]} bare
 * @property {Map<number, string[]>} names of the points on each net of copper
 * @property {import("./rules.js").Breach[]} breaches
 */

/** The kinds of findings, in their order. */
export const KINDS = ["short", "open", "no copper", ...RULES.keys()];

/** What findings of a board are kept by: their kinds, nets and places. */
export class Keeping {
  /**
   * @param {string[]} labels of the copper layers
   * @param {Map<number, string[]>} names of the points on each net of copper
   */
  constructor(labels, names) {
    this.labels = labels;
    this.names = names;
  }

  /**
   * What people call a net of copper: the names of its points, else a place of it.
   * @param {number} net
   * @param {{x: number, y: number}} place
   */
  nameOf(net, place) {
    return this.names.get(net)?.join(" and ") ?? `copper at ${placeWords(place)}`;
  }

  /** @param {{nets: number[], from: {x: number, y: number}}} breach */
  namesOf({ nets, from }) {
    return nets.map((net) => this.nameOf(net, from));
  }

  /**
   * @param {string} kind
   * @param {string[]} nets
   * @param {{layer: number | null, x: number, y: number}} place
   * @returns {import("./accepted.js").Kept}
   */
  at(kind, nets, { layer, x, y }) {
    return { kind, nets, layer: layer === null ? "holes" : elementAt(this.labels, layer), x: x / 1e6, y: y / 1e6 };
  }

  /**
   * A point of the part with the fewest points stands for an open.
   * @param {import("./compare.js").Open} open
   */
  open({ net, parts }) {
    return this.at("open", [net], spotOf(leastOf(parts)));
  }

  /** @param {import("./compare.js").Short} short */
  short({ nets, touching }) {
    return this.at("short", nets.map(({ net }) => net), touching[0]?.place ?? spotOf(leastOf(nets)));
  }

  /** @param {import("./compare.js").Bare} bare */
  bare({ point }) {
    return this.at("no copper", [point.net ?? "N/C", point.name], spotOf(point));
  }

  /** @param {import("./rules.js").Breach} breach */
  breach(breach) {
    const { rule, sources, shown = [], layer, from } = breach;
    return this.at(rule, [...sources, ...shown, ...this.namesOf(breach)], { ...from, layer });
  }
}

/**
 * A breach in a line, with names for its nets and labels for layers.
 * @param {import("./rules.js").Breach} breach
 * @param {number} limit
 * @param {string[]} names
 * @param {string[]} labels
 */
export function breachWords({ rule, value, within, layer, from, to, sources, shown = [] }, limit, names, labels) {
  const what = [...sources, ...shown, ...names].join(" and "), where = `${placeWords(from)}${to ? ` and ${placeWords(to)}` : ""}`;
  const exact = within > 1 ? ` (within ${mm(within)})` : "", doubled = rule === "hole-hole" && from.x === to?.x && from.y === to?.y;
  return `${rule}: ${mm(value)} mm${exact}, ${RULES.get(rule)?.isMost ? "more" : "less"} than ${mm(limit)}: ${what} at ${where}${layer === null ? "" : ` on ${labels[layer]}`}${
    doubled ? ": doubled" : ""}`;
}

/**
 * The middle of a measure, else a place.
 * @param {import("./measures.js").Measure | null} measure
 * @param {{x: number, y: number}} place
 */
const middleOf = (measure, { x, y }) => (measure ? { x: (measure[0].x + measure[1].x) / 2, y: (measure[0].y + measure[1].y) / 2 } : { x, y });

/**
 * All findings of a board, by kind in the order of `KINDS`, the worst of each first.
 * @param {FoundOfBoard} found
 * @param {{labels: string[], called?: string[], pitch: number, limits: Map<string, number>}} board the layers' names, and what people call
 *   them if that is other
 * @returns {Finding[]}
 */
export function findingsOf({ opens, shorts, bare, names, breaches }, { labels, called = labels, pitch, limits }) {
  const keeping = new Keeping(labels, names), report = new Report(called, pitch);
  /** @type {Finding[]} */
  const ofNets = [
    ...[...shorts].sort((one, other) => widthOf(one) - widthOf(other)).map((short) => ({ kind: "short", kept: keeping.short(short), ...shortAt(short),
      lines: report.short(short), short: short.nets.map(({ net }) => net).join(" and "), shown: [] })),
    ...opens.map((open) => ({ kind: "open", kept: keeping.open(open), ...openAt(open), lines: report.open(open), short: open.net, shown: [] })),
    ...bare.map((found) => ({ kind: "no copper", kept: keeping.bare(found), value: null, measure: null, place: spotOf(found.point),
      lines: report.bare(found), short: `${found.point.name} of ${found.point.net ?? "no net"}`, shown: [] })),
  ];
  return [...ofNets, ...breaches.map((breach) => {
    const { rule, value, measure, layer, from, sources, shown = [] } = breach, own = keeping.namesOf(breach);
    return { kind: rule, kept: keeping.breach(breach), value, measure, place: { layer, ...middleOf(measure, from) },
      lines: [breachWords(breach, limits.get(rule) ?? 0, own, called)], short: [...sources, ...shown, ...own].join(" and "), shown };
  })];
}

/** @param {{x: number, y: number}} place */
const placeOf = ({ x, y }) => ({ x, y });

/**
 * Where a point is told: on the first of its layers; one without a layer is not compared.
 * @param {import("./points.js").NetPoint} point
 */
const spotOf = ({ x, y, layers }) => ({ layer: elementAt(layers, 0), x, y });

/**
 * The first point of the last of some parts or nets.
 * @param {{points: import("./points.js").NetPoint[]}[]} list
 */
const leastOf = (list) => elementAt(elementAt(list, list.length - 1).points, 0);

/** @param {import("./compare.js").Short} short */
const widthOf = ({ touching }) => touching[0]?.width ?? Infinity;

/**
 * @param {import("./compare.js").Short} short
 * @returns {Pick<Finding, "value" | "measure" | "place">}
 */
function shortAt({ nets, touching }) {
  const [first] = touching;
  if (!first) return { value: null, measure: null, place: spotOf(leastOf(nets)) };
  const { place, width, measure } = first;
  return { value: width, measure, place: { layer: place.layer, ...middleOf(measure, place) } };
}

/**
 * @param {import("./compare.js").Open} open
 * @returns {Pick<Finding, "value" | "measure" | "place">}
 */
function openAt({ parts, gaps }) {
  const [first] = gaps;
  if (!first) return { value: null, measure: null, place: spotOf(leastOf(parts)) };
  const isAcross = first.kind === "copper";
  /** @type {import("./measures.js").Measure | null} */
  const measure = isAcross ? [placeOf(first.from), placeOf(first.to)] : null;
  return { value: isAcross ? first.distance : null, measure, place: { layer: first.from.layer, ...middleOf(measure, first.from) } };
}

/**
 * A rule that cannot be checked, in a line.
 * @param {import("./covers.js").Unchecked} unchecked
 */
export const uncheckedWords = ({ rule, side, why }) => `not checked: ${RULES.get(rule)?.title}${side ? ` on ${side}` : ""}: ${why}`;

// The check of a board: what differs from its nets, and where rules are broken, as tools/nets finds it. It goes on in steps, so that
// a person may stop between two of them. What an edit did not touch is not looked at again: a layer whose text is the same keeps its
// picture, and a rule keeps what was found where the pictures, the points and the limit that it is about are the same.

import { BY_ATTRIBUTE, joined, windowAtPitch } from "../board/index.js";
import {
  Grid, RULES, RuleCheck, closedLines, compareNets, coversInWindow, coversOf, difference, findingsOf, flatItems, flatRows, holesOf, inOrder,
  neededBy, netsOf, pixelsOfLines, runsOfFlat, sidesOf, stackOf, uncheckedOf, union,
} from "../nets/index.js";
import { CheckedLayer, Undrawn } from "./checked_layer.js";

/** @typedef {import("../board/index.js").Box} Box */
/** @typedef {import("../board/index.js").Layer} Layer */
/** @typedef {import("../board/index.js").PlotWindow} PlotWindow */
/** @typedef {import("../nets/index.js").NetPoint} NetPoint */
/** @typedef {[number, number][][]} Lines */
/** @typedef {ReturnType<CheckedBoard["take"]>} Shown the layers that a check needs */
/** @typedef {ReturnType<typeof netsIn>} NetsFound */
/** @typedef {ReturnType<typeof compareNets>} Comparison */
/** @typedef {ReturnType<CheckedBoard["answer"]>} Answer what was found */
/** @typedef {{ what: string, done: number }} Step what comes next in words, and how much of all is done */
/** @typedef {"holes" | "copper" | "points" | "mask" | "silk" | "paste"} Part of a board */

/** @type {Comparison} */
const NOTHING = { opens: [], shorts: [], bare: [], loose: [], names: new Map() };

// Which parts of a board each rule is about: its copper with what joins and cuts it, its points, and what lies on it.
/** @type {Map<string, Part[]>} */
const ABOUT = new Map([["hole-hole", ["holes"]], ["doubled", ["holes"]], ["overlap", ["holes"]], ["pad-hole", ["holes", "points"]], ["mask-web", ["mask"]],
  ["mask-bare", ["copper", "points", "mask"]], ["silk-bare", ["copper", "mask", "silk"]], ["paste", ["mask", "paste"]]]);
/** @param {string} rule @returns {Part[]} */
const aboutOf = (rule) => ABOUT.get(rule) ?? ["copper"];

/** The outline that cuts: the one that an attribute names, else the first. */
const outlineOf = (/** @type {Layer[]} */ layers) => {
  const outlines = layers.filter(({ layerFunction: { name } }) => name === "outline");
  return outlines.find(({ toldBy }) => toldBy === BY_ATTRIBUTE) ?? outlines[0] ?? null;
};

/**
 * What is asked of a check.
 * @typedef {object} Asked
 * @property {Map<string, number>} limits of the rules, in nm
 * @property {number} pitch in nm
 * @property {number} most pixels of a side
 * @property {NetPoint[]} points
 */

export class CheckedBoard {
  /** @param {WebAssembly.Module} compiled */
  constructor(compiled) {
    this.compiled = compiled;
    /** @type {Map<string, CheckedLayer>} by their names */
    this.layers = new Map();
    /** @type {Map<string, {key: string, breaches: import("../nets/index.js").Breach[]}>} what was found of each rule */
    this.found = new Map();
    /** @type {{key: string, made: NetsFound} | null} the nets of the last check, and what it compared them with */
    this.nets = null;
    /** @type {{key: string, made: Comparison} | null} */
    this.compared = null;
    // The number of each thing that a key names.
    /** @type {WeakMap<object, number>} */
    this.numbers = new WeakMap();
    this.count = 0;
  }

  /**
   * The layers of a follower that a check needs, as they are now. What is known of a layer whose text is another one is forgotten.
   * @param {import("./follower.js").Follower} follower
   * @param {Map<string, number>} limits
   */
  take(follower, limits) {
    const all = [...follower.layers.values()].map(({ layer }) => layer), stack = stackOf(all), before = this.layers;
    /** @type {Map<string, CheckedLayer>} */
    const layers = new Map();
    /** @param {Layer} layer */
    const checked = ({ name }) => {
      const bytes = follower.textOf(name), known = before.get(name), its = follower.layer(name);
      const one = known?.isSame(its, bytes) ? known : new CheckedLayer(this.compiled, its, bytes);
      layers.set(name, one);
      return one;
    };
    const copper = stack.copper.map(({ layer }) => checked(layer)), spans = stack.holes.map(({ layer, from, to }) => ({ layer: checked(layer), from, to }));
    const unplated = all.filter(({ layerFunction: { name } }) => name === "nonplated").map(checked), outline = outlineOf(all);
    const shown = { stack, copper, spans, drilled: spans.map(({ layer }) => layer), unplated, outline: outline && checked(outline),
      covers: coversOf(all, neededBy(limits)).map(checked) };
    this.layers = layers;
    return shown;
  }

  /** @param {object} thing */
  numberOf(thing) {
    const known = this.numbers.get(thing) ?? ++this.count;
    this.numbers.set(thing, known);
    return known;
  }

  // The window around all copper and holes, and around mask and paste as far as they lie in the outline.
  /** @param {Shown} shown @param {Lines} closed @param {Asked} asked */
  windowOf({ copper, drilled, covers }, closed, { pitch, most }) {
    const around = joined([...copper, ...drilled].map(({ box }) => box));
    if (!around) return null;
    const names = new Set(coversInWindow(covers.map(({ layer }) => layer)).map(({ name }) => name));
    const over = covers.map(({ layer, box }) => (names.has(layer.name) ? box : null)), all = joined([around, cutTo(joined(over), closed)]) ?? around;
    return windowAtPitch(all, Math.max(pitch, Math.ceil(Math.max(all.right - all.left, all.high - all.low) / most)));
  }

  /**
   * A check in steps: each has in words what comes next, and how much of all is done. What it comes to is what was found, or null
   * where there is no copper.
   * @param {import("./follower.js").Follower} follower
   * @param {Asked} asked
   * @returns {Generator<Step, Answer | null>}
   */
  * steps(follower, asked) {
    const { limits, points } = asked, shown = this.take(follower, limits), rules = limited(limits);
    const count = this.layers.size + 2 + rules.length, closed = shown.outline ? closedLines(shown.outline.lines).closed : [];
    const window = this.windowOf(shown, closed, asked);
    if (!window) return null;
    let done = 0;
    for (const layer of this.layers.values()) {
      yield { what: `drawing ${layer.layer.name}`, done: done++ / count };
      if (layer !== shown.outline) layer.runs(window, shown.drilled.includes(layer) ? layer.unplated : []);
    }
    const keys = this.keysOf(shown, window, points);
    yield { what: "finding the nets", done: done++ / count };
    if (this.nets?.key !== keys.copper) this.nets = { key: keys.copper, made: netsIn(shown, window, closed) };
    const { nets, apart } = this.nets.made, grid = new Grid(window);
    yield { what: "comparing", done: done++ / count };
    const compared = `${keys.copper} ${keys.points}`;
    if (this.compared?.key !== compared) this.compared = { key: compared, made: points.length ? compareNets(nets, grid, points, { apart }) : NOTHING };
    const { made: found } = this.compared;
    const again = yield* this.rules({ shown, window, nets, grid, points, closed, rules, keys }, (at) => (done + at) / count);
    return this.answer({ shown, window, points, limits, found, nets, again });
  }

  // What the layers, the points and the window are, in words: where these are the same, so is what follows from them.
  /** @param {Shown} shown @param {PlotWindow} window @param {NetPoint[]} points @returns {Record<Part, string>} */
  keysOf({ stack, copper, drilled, unplated, outline, covers }, window, points) {
    const of = (/** @type {CheckedLayer[]} */ layers) => layers.map((layer) => `${layer.layer.name} ${this.numberOf(layer)}`).join(" ");
    const named = (/** @type {string} */ what) => covers.filter(({ layer }) => layer.layerFunction.name.endsWith(`-${what}`));
    const at = JSON.stringify([window, copper.map(({ layer }) => layer.name), stack.holes.map(({ from, to }) => [from, to])]), holes = `${at} ${of(drilled)} | ${of(unplated)}`;
    return { holes, copper: `${holes} ${of(copper)} | ${outline ? of([outline]) : ""}`, points: String(this.numberOf(points)), mask: `${at} ${of(named("mask"))}`,
      silk: of(named("silk")), paste: of(named("paste")) };
  }

  /**
   * Checks the rules that are not known, and answers which these were.
   * @param {CheckedOf & {shown: Shown, rules: Limited[], keys: Record<Part, string>}} of
   * @param {(at: number) => number} doneAt how much of all is done then
   * @returns {Generator<Step, string[]>}
   */
  * rules({ shown, window, nets, grid, points, closed, rules, keys }, doneAt) {
    const before = this.found;
    /** @type {string[]} */
    const again = [];
    /** @type {RuleCheck | null} */
    let check = null;
    this.found = new Map();
    for (const [at, { rule, title: what, limit }] of rules.entries()) {
      const key = [limit, ...aboutOf(rule).map((part) => keys[part])].join("\n"), known = before.get(rule);
      if (known?.key === key) {
        this.found.set(rule, known);
        continue;
      }
      yield { what, done: doneAt(at) };
      check ??= new RuleCheck(checkedOf(shown, { window, nets, grid, points, closed }));
      /** @type {import("../nets/index.js").Breach[][]} */
      const breaches = [];
      for (const part of check.parts(rule, limit)) {
        breaches.push(part);
        yield { what, done: doneAt(at) };
      }
      this.found.set(rule, { key, breaches: breaches.flat() });
      again.push(rule);
    }
    return again;
  }

  /**
   * @param {{shown: Shown, window: PlotWindow, points: NetPoint[], limits: Map<string, number>, found: Comparison, nets: NetsFound["nets"],
   *   again: string[]}} of
   */
  answer({ shown: { stack, covers, copper }, window, points, limits, found, nets, again }) {
    const labels = copper.map(({ layer }) => layer.name), breaches = inOrder(new Map([...this.found].map(([rule, { breaches: own }]) => [rule, own])));
    return { findings: findingsOf({ ...found, breaches }, { labels, pitch: window.pitch, limits }), loose: found.loose, points: points.length, again,
      unchecked: uncheckedOf({ stack, covers: covers.map(({ layer }) => layer) }, limits, points), limits: [...limits], pitch: window.pitch, labels,
      count: nets.count };
  }
}

/**
 * A rule with its limit, in nm.
 * @typedef {{rule: string, title: string, limit: number}} Limited
 */

/** @param {Map<string, number>} limits @returns {Limited[]} */
const limited = (limits) => [...RULES].flatMap(([rule, { title }]) => {
  const limit = limits.get(rule);
  return limit === undefined ? [] : [{ rule, title, limit }];
});

/**
 * A box, cut to the outline where there is one; null where nothing of it lies there.
 * @param {Box | null} all
 * @param {Lines} closed
 */
function cutTo(all, closed) {
  const outline = joined(closed.flat().map(([x, y]) => ({ left: x, low: y, right: x, high: y })));
  if (!all || !outline) return all;
  const box = { left: Math.max(all.left, outline.left), low: Math.max(all.low, outline.low), right: Math.min(all.right, outline.right),
    high: Math.min(all.high, outline.high) };
  return box.left < box.right && box.low < box.high ? box : null;
}

/**
 * The nets in a window, with what cuts copper, and those without the items that tie two nets.
 * @param {Shown} shown
 * @param {PlotWindow} window
 * @param {Lines} closed
 */
function netsIn({ copper, spans, drilled, unplated, outline }, window, closed) {
  const rows = unplated.map((layer) => flatRows(layer.runs(window)));
  for (const layer of drilled.filter((own) => own.unplated.length)) {
    const bare = new Set(layer.unplated), rest = layer.said.items.flatMap((_, place) => (bare.has(place) ? [] : [place]));
    rows.push(flatRows(layer.runs(window, rest)));
  }
  if (outline && closed.length) rows.push(pixelsOfLines(closed, new Grid(window)));
  const cuts = rows.length ? rows.reduce((one, other) => union(one, other)) : null;
  /** @param {import("../nets/index.js").Runs} runs */
  const cut = (runs) => (cuts ? runsOfFlat(difference(flatRows(runs), cuts), runs.width) : runs);
  const holes = spans.map(({ layer, from, to }) => ({ runs: layer.runs(window, layer.unplated), from, to }));
  const cutCopper = copper.map((layer) => ({ layer, whole: cut(layer.runs(window)), ties: layer.ties })), nets = netsOf(cutCopper.map(({ whole }) => whole), holes);
  if (cutCopper.every(({ ties }) => !ties.length)) return { nets, apart: nets };
  return { nets, apart: netsOf(cutCopper.map(({ layer, whole, ties }) => (ties.length ? cut(layer.runs(window, ties)) : whole)), holes) };
}

/** @typedef {{window: PlotWindow, nets: NetsFound["nets"], grid: Grid, points: NetPoint[], closed: Lines}} CheckedOf */

/**
 * What rules are checked of.
 * @param {Shown} shown
 * @param {CheckedOf} of
 * @returns {import("../nets/index.js").Checked}
 */
function checkedOf({ stack, copper, drilled, unplated, covers }, { window, nets, grid, points, closed }) {
  const holes = [...drilled, ...unplated].flatMap((layer, at) => {
    const { tools } = layer, isPlated = (/** @type {number | null} */ number) => at < drilled.length && !tools.has(number);
    return holesOf(flatItems(layer.said), { isPlated, layer: at, label: layer.layer.name });
  });
  const own = new Map([...copper, ...covers].map((layer) => [layer.layer, layer]));
  /** @param {Layer} layer */
  const checked = (layer) => {
    const found = own.get(layer);
    if (!found) throw new Undrawn(`${layer.name} is not checked`);
    return found;
  };
  const sides = covers.length ? sidesOf({ stack, covers: covers.map(({ layer }) => layer) }, { runsOf: (layer) => checked(layer).runs(window),
    saidOf: (layer) => checked(layer).said, holes, points }) : [];
  return { nets, grid, holes, spans: nets.holes, outline: closed, points, sides };
}

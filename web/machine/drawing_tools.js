// The tools that draw an item: what the points clicked so far make of it. Each has the words of the item for its points
// and the settings of new items, and how many points it takes; null where it takes them until Enter or a double click.

import { snapped } from "../board/index.js";

// What new items are drawn with: an entry of the layer, polarity, turn, the direction of arcs, and the grid in nm.
/** @type {Machine.Settings} */
export const SETTINGS = { entry: 0, polarity: "dark", turn: "r0", direction: "ccw", grid: 10000 };

/** @param {Board.Point[]} points */
const flat = (points) => points.map(({ x, y }) => `${x} ${y}`).join(" ");

// The point on the circle about a centre through a start that is nearest to a direction, in whole nm.
/** @param {Board.Point} centre @param {Board.Point} start @param {Board.Point} towards @returns {Board.Point} */
function onCircle(centre, start, towards) {
  const radius = Math.hypot(start.x - centre.x, start.y - centre.y);
  const angle = Math.atan2(towards.y - centre.y, towards.x - centre.x);
  return { x: Math.round(centre.x + radius * Math.cos(angle)), y: Math.round(centre.y + radius * Math.sin(angle)) };
}

// Start, centre, and a point in the direction of the end; the arc runs counterclockwise, or a full circle where the end
// is the start.
/** @param {Board.Point[]} points @param {Machine.Settings} settings */
function arcWords([start, centre, towards], { entry, direction, polarity, grid }) {
  if (!start || !centre || !towards) return null;
  const isFull = Math.hypot(towards.x - start.x, towards.y - start.y) < grid;
  const end = isFull ? start : onCircle(centre, start, towards);
  return `arc ${entry} ${flat([start, end, centre])} ${direction} ${polarity}`;
}

/** @param {Board.Point} one @param {Board.Point} other */
const isSame = (one, other) => one.x === other.x && one.y === other.y;

// The side of a region to a point: straight, or an arc where the point has a centre.
/** @param {Machine.Drawn["points"][number]} point */
const side = ({ x, y, centre, direction }) => centre ? `${direction} ${x} ${y} ${centre.x} ${centre.y}` : `l ${x} ${y}`;

// The contour ends where it begins.
/** @param {Machine.Drawn["points"]} points @param {Machine.Settings} settings */
function regionWords([first, ...rest], { polarity }) {
  const last = rest.at(-1);
  if (!first || !last) return null;
  const sides = isSame(last, first) ? rest : [...rest, { x: first.x, y: first.y }];
  return `region ${polarity} ${flat([first])} ${sides.map(side).join(" ")}`;
}

/** @type {Record<string, Machine.DrawingTool>} */
export const drawingTools = {
  flash: { label: "Flash", kind: "gerber", count: 1, words: (points, { entry, turn, polarity }) =>
    `flash ${entry} ${flat(points)} ${turn} ${polarity}` },
  draw: { label: "Draw", kind: "gerber", count: 2, words: (points, { entry, turn, polarity }) =>
    `draw ${entry} ${flat(points)} ${turn} ${polarity}` },
  arc: { label: "Arc", kind: "gerber", count: 3, words: arcWords, hint: "start, centre, then the direction of the end" },
  region: { label: "Region", kind: "gerber", count: null, least: 3, hasArcs: true, words: regionWords,
    hint: "click the corners, Enter ends; for an arc click its centre with Shift, then the direction of its end" },
  hit: { label: "Hit", kind: "drill", count: 1, words: (points, { entry }) => `hit ${entry} ${flat(points)}` },
  rout: { label: "Rout", kind: "drill", count: null, least: 2, words: (points, { entry }) => `rout ${entry} ${flat(points)}` },
};

// An item in the making: its points so far, and the centre of the arc that the next one ends.
export class Making {
  /** @param {string} name @param {Machine.Settings} settings @param {Partial<Machine.Drawn>} drawn */
  constructor(name, settings = SETTINGS, { points = [], centre = null } = {}) {
    const tool = drawingTools[name];
    if (!tool) throw new Error(`There is no tool ${name}.`);
    this.tool = tool;
    this.settings = settings;
    this.points = points;
    this.centre = centre;
  }

  /** @param {Machine.Tapped} point @returns {Board.Point} */
  snapped({ x, y, isSnapped = false }) {
    if (isSnapped) return { x, y };
    const { grid } = this.settings;
    return { x: snapped(x, grid), y: snapped(y, grid) };
  }

  // Takes a point, or the centre of an arc to the next one; answers the words where the item is whole.
  /** @param {Machine.Tapped} point @param {boolean} isCentre */
  add(point, isCentre = false) {
    const at = this.snapped(point), last = this.points.at(-1);
    if (isCentre && this.tool.hasArcs && last && !isSame(at, last)) {
      this.centre = at;
      return null;
    }
    if (!this.centre && last && isSame(last, at)) return this.tool.count === null ? this.end() : null;
    this.points = [...this.points, this.next(at)];
    this.centre = null;
    return this.points.length === this.tool.count ? this.take() : null;
  }

  // The next point where the pointer is, on the arc about the centre if there is one: all around where it is the start.
  /** @param {Board.Point} at */
  next(at) {
    const { centre } = this, start = this.points.at(-1);
    if (!centre || !start) return at;
    const isFull = Math.hypot(at.x - start.x, at.y - start.y) < this.settings.grid;
    const { x, y } = isFull ? start : onCircle(centre, start, at);
    return { x, y, centre, direction: this.settings.direction };
  }

  /** @param {Machine.Drawn["points"]} points */
  isEnough(points) {
    return points.length >= (this.tool.least ?? 1) || points.length > 1 && points.some(({ centre }) => centre);
  }

  // The words of what there is, where that is enough.
  end() {
    return this.tool.count === null && this.isEnough(this.points) ? this.take() : null;
  }

  take() {
    const words = this.tool.words(this.points, this.settings);
    this.points = [];
    this.centre = null;
    return words;
  }

  // The words with the pointer as the next point, to be shown.
  /** @param {Machine.Tapped} pointer */
  preview(pointer) {
    const points = [...this.points, this.next(this.snapped(pointer))], { entry } = this.settings;
    const { count, least = 1 } = this.tool;
    if (points.length < (count === null ? Math.min(2, least) : Math.min(2, count))) return null;
    if (count === 3 && points.length === 2) return `draw ${entry} ${flat(points)} r0 dark`;
    if (count === null && !this.isEnough(points)) return `draw ${entry} ${flat(points.slice(0, 2))} r0 dark`;
    return this.tool.words(points, this.settings);
  }
}

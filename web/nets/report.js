// What a comparison of nets found, in words for people.

import { counted, mm, placeWords } from "./words.js";

/**
 * @typedef {import("./compare.js").Place} Place
 * @typedef {{x: number, y: number}} Spot in nm
 */

/** How many points of a net are told one by one; how many parts of one. */
const MOST_POINTS = 6, MOST_PARTS = 12;

/**
 * Points by their names, the first few of many.
 * @param {import("./points.js").NetPoint[]} points
 */
export function pointNames(points) {
  const names = [...new Set(points.map(({ name }) => name))];
  const more = names.length - MOST_POINTS;
  return more > 1 ? `${names.slice(0, MOST_POINTS).join(", ")} and ${more} more` : names.join(", ");
}

/** Words for the findings of a board whose layers have these labels, from the top. */
export class Report {
  /** @param {string[]} labels @param {number} pitch */
  constructor(labels, pitch) {
    this.labels = labels;
    this.pitch = pitch;
  }

  /** @param {Place} place */
  at({ layer, x, y }) {
    return `${placeWords({ x, y })} on ${this.labels[layer]}`;
  }

  /**
   * A distance on pixels, and how exact it is.
   * @param {number} nm
   */
  distance(nm) {
    return `${mm(nm)} mm (within ${mm(Math.ceil(this.pitch * Math.SQRT2))})`;
  }

  /** @param {import("./compare.js").Gap} gap */
  gap({ kind, from, to, distance, over, part, other }) {
    const between = `part ${part + 1} and part ${other + 1}`;
    if (kind === "hole") {
      return `${between}: no plated hole joins ${this.labels[from.layer]} and ${this.labels[to.layer]} at ${placeWords(from)}`;
    }
    const layers = over ? `they lie over each other at ${placeWords(over)}, where a plated hole would join them` : "";
    if (kind === "layers") return `${between} are on ${this.labels[from.layer]} and ${this.labels[to.layer]}: ${layers}`;
    const ends = `${between} end at ${this.at(from)} and ${placeWords(to)}, ${this.distance(distance)} apart`;
    return layers ? `${ends}; ${layers}` : ends;
  }

  /** @param {import("./compare.js").Open} open */
  open({ net, parts, gaps }) {
    const rows = parts.map(({ points }, at) => `  part ${at + 1}: ${counted(points.length, "point")}: ${pointNames(points)}`);
    const more = parts.length - MOST_PARTS;
    return [`open: ${net} is in ${parts.length} parts`, ...rows.slice(0, MOST_PARTS), ...(more > 0 ? [`  and ${counted(more, "more part")}`] : []),
      ...gaps.slice(0, MOST_PARTS).map((gap) => `  ${this.gap(gap)}`)];
  }

  /** @param {import("./compare.js").Short} short */
  short({ nets, touching }) {
    const rows = nets.map(({ net, points }) => `  ${net}: ${counted(points.length, "point")}: ${pointNames(points)}`);
    const places = touching.map(({ nets: [one, other], place, width }) =>
      `  ${one} and ${other} touch at ${this.at(place)}, where the way between them is narrowest: ${this.distance(width)}`);
    return [`short: ${nets.map(({ net }) => net).join(" and ")} are one piece`, ...rows, ...places];
  }

  /** @param {import("./compare.js").Bare} bare */
  bare({ point }) {
    const { net, name, source, layers } = point;
    const where = layers.map((layer) => this.labels[layer]).join(" or ");
    return [`no copper: ${name} of ${net ?? "no net"} (${source}) at ${placeWords(point)} on ${where}`];
  }

  /** @param {import("./compare.js").Loose} loose */
  loose({ place, area }) {
    return [`no point: copper of ${area.toFixed(4)} mm² at ${this.at(place)}`];
  }

  /** @param {{names: string[], from: Place, to: Spot, distance: number}} near */
  clearance({ names, from, to, distance }) {
    return [`gap: ${names.join(" and ")} are ${this.distance(distance)} apart at ${this.at(from)} and ${placeWords(to)}`];
  }

  /** @param {{name: string, place: Place, width: number}} narrow */
  neck({ name, place, width }) {
    return [`neck: ${name} is ${this.distance(width)} wide at ${this.at(place)}`];
  }
}

// Boards for tests, made from one model: its copper as Gerber files with attributes, its holes as drill files and its points as a
// netlist. A part of a board is made about a corner of its own, with nets and parts of its own names; in one of them faults are planted.

import { box, drill, netlist } from "./small_boards.js";

/** @typedef {[number, number]} Place in mm */
/**
 * What is planted: two nets that touch at a place, with the width there; a track that is cut between two places; a hole that is missing.
 * @typedef {{kind: "short", nets: string[], place: Place, width: number}} PlantedShort
 * @typedef {{kind: "open", net: string, ends: Place[]}} PlantedOpen
 * @typedef {{kind: "hole", net: string, place: Place}} PlantedHole
 *
 * A pad; a part `VIA`, as it is without another one, is a via.
 * @typedef {object} Pad
 * @property {string} [part]
 * @property {string} [pin]
 * @property {string} [shape]
 * @property {number} [size] its smaller side
 * @property {number[]} [span] the first and the last layer
 * @property {number} [hole] its diameter
 * @property {number} [length] of a slot, along x, from middle to middle
 * @property {string} [use] what it is for
 * @property {boolean} [isPlated]
 * @property {boolean} [isMissing] whether its hole is the one that is missing where faults are planted
 */

/** A rectangle about its middle by two of its corners, and a disc on the first one. */
const MACRO = "%AMTURNED*4,1,4,$1,$2,$3,$4,-$1,-$2,-$3,-$4,$1,$2,0*1,1,$5,$1,$2*%";
/** How wide the ends of a cut track are. */
const TIP = 0.012;

const micro = (mm) => Math.round(mm * 1000) / 1000;
/** @param {number[]} place */
const words = ([x, y]) => `X${Math.round(x * 1e6)}Y${Math.round(y * 1e6)}`;
/** @param {number[][]} corners */
const closed = (corners) => [`${words(corners[0])}D02*`, ...[...corners.slice(1), corners[0]].map((place) => `${words(place)}D01*`)];
/** @param {number[][]} corners */
const contour = (corners) => ["G36*", ...closed(corners), "G37*"];
/** A place so far from one along a line and to its left. */
const from = ([x, y], [alongX, alongY], on, aside = 0) => /** @type {Place} */ ([x + alongX * on - alongY * aside,
  y + alongY * on + alongX * aside]);
const lengthOf = ([x0, y0], [x1, y1]) => Math.hypot(x1 - x0, y1 - y0);
const unit = (first, last) => /** @type {Place} */ ([0, 1].map((axis) => (last[axis] - first[axis]) / lengthOf(first, last)));
const middleOf = ([x0, y0], [x1, y1]) => /** @type {Place} */ ([(x0 + x1) / 2, (y0 + y1) / 2]);

/** The file of a copper layer: what lies under, what clears it, what lies over that, and what is outside of a repeat. */
class MadeLayer {
  constructor() {
    /** @type {Map<string, number>} */
    this.apertures = new Map();
    this.under = [];
    this.clears = [];
    this.over = [];
    this.outside = [];
  }

  aperture(shape, use) {
    const key = `${use} ${shape}`, known = this.apertures.get(key) ?? 10 + this.apertures.size;
    this.apertures.set(key, known);
    return known;
  }

  text(layerFunction, repeat) {
    const definitions = [...this.apertures].flatMap(([key, number]) => {
      const [use, shape] = key.split(" ");
      return [`%TA.AperFunction,${use}*%`, `%ADD${number}${shape}*%`, "%TD*%"];
    });
    const body = [...this.under, ...this.clears.length ? ["%LPC*%", ...this.clears, "%LPD*%"] : [], ...this.over];
    const repeated = repeat ? [`%SRX${repeat.count}Y${repeat.count}I${repeat.step}J${repeat.step}*%`, ...body, "%SR*%"] : body;
    return [`%TF.FileFunction,${layerFunction}*%`, "%FSLAX46Y46*%", "%MOMM*%", MACRO, ...definitions, "%LPD*%", "G75*", "G01*", ...repeated,
      ...this.outside, "M02*", ""].join("\n");
  }
}

export class MadeBoard {
  /**
   * @param {number} copper how many layers of copper
   * @param {{count: number, step: number} | null} [repeat] where the board is a panel: its copies and how far they are apart
   */
  constructor(copper, repeat = null) {
    this.layers = Array.from({ length: copper }, () => new MadeLayer());
    this.repeat = repeat;
    /** @type {Map<string, Map<number, (Place | Place[])[]>>} hits by their tools, by what their file is */
    this.holes = new Map();
    this.records = [];
    this.outlines = [];
    /** @type {(PlantedShort | PlantedOpen | PlantedHole)[]} */
    this.planted = [];
    this.number = 0;
    /** @type {Place} */
    this.corner = [0, 0];
    this.isPlanted = false;
  }

  /**
   * Begins a part: what follows is about its corner, with its number behind the names.
   * @param {number} number
   * @param {Place} corner
   * @param {boolean} isPlanted
   */
  begin(number, corner, isPlanted) {
    this.number = number;
    this.corner = corner;
    this.isPlanted = isPlanted;
  }

  get last() {
    return this.layers.length - 1;
  }

  /** @param {number[]} place @returns {Place} */
  at([x, y]) {
    return [micro(this.corner[0] + x), micro(this.corner[1] + y)];
  }

  net(name) {
    return name === "N/C" ? name : `${name}.${this.number}`;
  }

  part(name) {
    return `${name}.${this.number}`;
  }

  /**
   * Where copies of a panel lie, the one where faults are planted last.
   * @returns {Place[]}
   */
  get copies() {
    const { count, step } = this.repeat ?? { count: 1, step: 0 };
    return Array.from({ length: count * count }, (_, at) => /** @type {Place} */ ([at % count * step, Math.floor(at / count) * step]));
  }

  put(layer, net, lines, { part = "", pin = "", isUnder = false } = {}) {
    const named = net === null ? [] : [`%TO.N,${net.split(",").map((name) => this.net(name)).join(",")}*%`];
    const pinned = part ? [`%TO.P,${this.part(part)},${pin}*%`, `%TO.C,${this.part(part)}*%`] : [];
    this.layers[layer][isUnder ? "under" : "over"].push(...named, ...pinned, ...lines, ...named.length ? ["%TD*%"] : []);
  }

  /** A track along places. */
  track(net, layer, width, first, ...places) {
    const number = this.layers[layer].aperture(`C,${width}`, "Conductor");
    this.put(layer, net, [`D${number}*`, `${words(this.at(first))}D02*`, ...places.map((place) => `${words(this.at(place))}D01*`)]);
  }

  /** An arc about a centre, counter-clockwise. */
  arc(net, layer, width, start, end, centre) {
    const number = this.layers[layer].aperture(`C,${width}`, "Conductor"), [x, y] = this.at(start), [middleX, middleY] = this.at(centre);
    this.put(layer, net, [`D${number}*`, `${words([x, y])}D02*`, "G03*",
      `${words(this.at(end))}I${Math.round((middleX - x) * 1e6)}J${Math.round((middleY - y) * 1e6)}D01*`, "G01*"]);
  }

  /** A track that a fault cuts: two sharp tips are left, so far apart. */
  openTrack(net, layer, width, first, last, gap = 0.1) {
    if (!this.isPlanted) {
      this.track(net, layer, width, first, last);
      return;
    }
    const along = unit(first, last), middle = middleOf(first, last), ends = [-1, 1].map((side) => from(middle, along, side * gap / 2));
    if (this.repeat) this.clear(layer, width, middle, along, gap);
    if (this.repeat) this.track(net, layer, width, first, last);
    [first, last].forEach((start, at) => {
      const side = at ? 1 : -1;
      if (!this.repeat) this.track(net, layer, width, start, from(middle, along, side * (gap / 2 + width)));
      this.tip(layer, ends[at], along, side, width);
    });
    this.planted.push({ kind: "open", net: this.net(net), ends: ends.map((end) => this.inCopy(this.at(end))) });
  }

  // Takes the middle of a track away in the last copy.
  clear(layer, width, middle, along, gap) {
    const reach = gap / 2 + width, corners = box(-reach, -width, reach, width).map(([on, aside]) => this.inCopy(this.at(from(middle, along, on, aside))));
    this.layers[layer].outside.push("%LPC*%", ...contour(corners), "%LPD*%");
  }

  // An end of a track that is little wider than a pixel: the nearest places of two such ends are there.
  tip(layer, end, along, side, width) {
    const corners = [[0, -TIP], [1.1 * width, -width], [1.1 * width, width], [0, TIP]];
    this.extra(layer, corners.map(([on, both]) => from(end, along, side * on, both / 2)));
  }

  /** Copper without a net, in the last copy alone. */
  extra(layer, corners) {
    const lines = contour(corners.map((corner) => this.inCopy(this.at(corner))));
    this.layers[layer][this.repeat ? "outside" : "over"].push(...lines);
  }

  /** @param {Place} place */
  inCopy([x, y]) {
    const [right, up] = this.copies[this.copies.length - 1];
    return /** @type {Place} */ ([x + right, y + up]);
  }

  /** A short, if faults are planted: copper that is narrowest in the middle between two places. */
  short(layer, nets, first, last, waist = 0.1) {
    if (!this.isPlanted) return;
    const along = unit(first, last), middle = middleOf(first, last), half = waist / 2, wide = half + lengthOf(first, last) / 4;
    this.extra(layer, [from(first, along, 0, wide), from(middle, along, 0, half), from(last, along, 0, wide), from(last, along, 0, -wide),
      from(middle, along, 0, -half), from(first, along, 0, -wide)]);
    this.planted.push({ kind: "short", nets: nets.map((net) => this.net(net)), place: this.inCopy(this.at(middle)), width: waist });
  }

  /**
   * A pad: a flash on each of its layers, its hole, and its record.
   * @param {string} net
   * @param {Place} place
   * @param {Pad} pad
   */
  pad(net, place, pad) {
    const { part = "VIA", pin = "", size = 0.6, shape = `C,${size}`, span: [first, last] = [0, this.last], hole = 0 } = pad;
    const { use = part === "VIA" ? "ViaPad" : hole ? "ComponentPad" : "SMDPad,CuDef", isPlated = true } = pad, isPart = part !== "VIA", [x, y] = this.at(place);
    for (let layer = first; layer <= last; layer++) {
      this.put(layer, net, [`D${this.layers[layer].aperture(shape, use)}*`, `${words([x, y])}D03*`], isPart ? { part, pin } : {});
    }
    const isThrough = first === 0 && last === this.last, named = { net: this.net(net), part: isPart ? this.part(part) : part, pin, x, y, width: size, height: 0 };
    if (!hole) {
      this.records.push({ code: 327, ...named, access: first + 1 });
      return;
    }
    this.records.push({ code: isThrough ? 317 : 307, ...named, hole, isPlated, access: isThrough || first ? 0 : 1, span: isThrough ? null : [first + 1, last + 1] });
    const kind = isThrough ? "PTH" : first && last < this.last ? "Buried" : "Blind";
    this.drill(isPlated ? `Plated,${first + 1},${last + 1},${kind}` : `NonPlated,${first + 1},${last + 1},NPTH`, net, [x, y], pad);
  }

  /**
   * The hits of a pad's hole, one in each copy, and none where it is missing.
   * @param {string} layerFunction
   * @param {string} net
   * @param {Place} place
   * @param {Pad} pad
   */
  drill(layerFunction, net, [x, y], { hole, length = 0, isMissing = false }) {
    const isLeftOut = isMissing && this.isPlanted, copies = isLeftOut ? this.copies.slice(0, -1) : this.copies;
    const moved = (on, [right, up]) => /** @type {Place} */ ([micro(x + on + right), micro(y + up)]);
    const hits = copies.map((copy) => (length ? [moved(-length / 2, copy), moved(length / 2, copy)] : moved(0, copy)));
    const tools = this.holes.get(layerFunction) ?? new Map();
    this.holes.set(layerFunction, tools.set(hole, [...tools.get(hole) ?? [], ...hits]));
    if (isLeftOut) this.planted.push({ kind: "hole", net: this.net(net), place: this.inCopy([x, y]) });
  }

  /** Copper with corners. */
  plane(net, layer, corners) {
    this.put(layer, net, contour(corners.map((corner) => this.at(corner))), { isUnder: true });
  }

  /** A disc of a plane that is taken away. */
  antipad(layer, place, diameter) {
    this.layers[layer].clears.push(`D${this.layers[layer].aperture(`C,${diameter}`, "AntiPad")}*`, `${words(this.at(place))}D03*`);
  }

  outline(left, low, right, high) {
    this.outlines.push(box(left, low, right, high).map((corner) => this.at(corner)));
  }

  /** All files, by their names. */
  files() {
    const nameOf = (layer) => (layer === 0 ? "Top" : layer === this.last ? "Bot" : "Inr");
    const outline = new MadeLayer(), number = outline.aperture("C,0.1", "Profile");
    for (const corners of this.outlines) {
      outline.over.push(`D${number}*`, ...closed(corners));
    }
    const drills = [...this.holes].map(([layerFunction, tools], at) => [`holes${at + 1}.drl`,
      drill(layerFunction, [...tools].map(([diameter, hits]) => ({ diameter, hits })))]);
    return Object.fromEntries([
      ...this.layers.map((layer, at) => [`copper${at + 1}.gbr`, layer.text(`Copper,L${at + 1},${nameOf(at)}`, this.repeat)]),
      ...drills,
      ["outline.gbr", outline.text("Profile,NP", this.repeat)], ["nets.d356", netlist(this.records)],
    ]);
  }
}

// The copper and the plated holes of a board, as camplot plots them.

import { mkdtempSync, readFileSync, rmSync } from "node:fs";
import { tmpdir } from "node:os";
import { join } from "node:path";
import { named, readAttributes } from "../../web/attributes/index.js";
import { BY_ATTRIBUTE, GERBER, explain, joined, windowAtPitch, windowLine, wordsOf } from "../../web/board/index.js";
import { latin1, readPbm } from "../../web/bytes/index.js";
import {
  Grid, closedLines, copiesOf, difference, flatItems, flatRows, holesOf, linesOfItem, netsOf, padsOf, pixelsOfLines, runsOf,
  runsOfFlat, stackOf, toolsWithoutPlating, union,
} from "../../web/nets/index.js";
import { headOf } from "../../web/station/index.js";
import { AskedLayer } from "./asked_layer.js";
import { Board, LOOKS } from "./boards.js";
import { Failure } from "./command.js";
import { refusedLine, toldLine } from "./edit_lines.js";
import { bytesOf } from "./inputs.js";
import { progress } from "./nets_progress.js";
import { boxOfCovers, coversOf } from "./nets_sides.js";
import { Room } from "./rooms.js";
import { meanings, runLines } from "./station.js";

/** @typedef {import("../../web/attributes/index.js").Reading} Reading */
/** @typedef {import("../../web/board/index.js").Box} Box */
/** @typedef {import("../../web/board/index.js").Layer} Layer */
/** @typedef {import("../../web/board/index.js").PlotWindow} PlotWindow */
/** @typedef {import("../../web/board/index.js").Reply} Reply */
/** @typedef {import("../../web/nets/index.js").Nets} Nets */
/** @typedef {import("../../web/nets/index.js").Runs} Runs */
/** @typedef {import("../../web/nets/index.js").SaidItems} SaidItems */

// The outline that cuts: the one that an attribute names, else the first.
/** @param {Layer[]} layers */
function outlineOf(layers) {
  const outlines = layers.filter(({ layerFunction: { name } }) => name === "outline");
  return outlines.find(({ toldBy }) => toldBy === BY_ATTRIBUTE) ?? outlines[0] ?? null;
}

// The stack of some layers, what cuts it (layers of holes without plating, and the outline), and what lies on it.
/** @param {Layer[]} layers @param {string[]} needed */
function takenOf(layers, needed) {
  const stack = stackOf(layers), { copper, holes } = stack, outline = outlineOf(layers), covers = coversOf(layers, needed);
  if (!copper.length) throw new Failure("no layer of copper is among the files");
  const drilled = [...copper, ...holes].map(({ layer }) => layer);
  const withoutPlating = layers.filter(({ layerFunction: { name } }) => name === "nonplated");
  return { stack, drilled, withoutPlating, outline, covers, shown: [...drilled, ...withoutPlating, ...(outline ? [outline] : []), ...covers] };
}

// The box around boxes of copper.
/** @param {Box[]} boxes */
function around(boxes) {
  const box = joined(boxes);
  if (!box) throw new Failure("the layers of copper paint nothing");
  return box;
}

// A scratch folder, where the program reads and writes.
const NAME = "camplot-nets-";

/** A board whose nets are asked for. `close` deletes what it keeps on the disk. */
export class NetsBoard {
  /**
   * @param {Layer[]} layers
   * @param {string[]} edits lines of a script, which run on the layers before these are plotted; those that only look are
   *   left out
   * @param {string} program
   * @param {string[]} [needed] which of mask, ink and paste are read too, as `mask`
   * @param {string} [from] the file of the edits
   * @throws {Failure} where no copper loads, or a line of the edits is refused
   */
  constructor(layers, edits, program, needed = [], from = "the edits") {
    this.program = program;
    this.needed = needed;
    this.from = from;
    this.layers = layers;
    /** @type {string[]} what is missing, in lines */
    this.missing = [];
    /** @type {Map<Layer, {label: string, items: SaidItems, reading: Reading | null}>} what the files of copper say of their items */
    this.known = new Map();
    /** @type {{layer: Layer, why: string}[]} the layers that are refused, and why */
    this.refused = [];
    /** @type {Map<Layer, string>} the texts of the layers after the edits, which are plotted, where there are any */
    this.edited = new Map();
    /** @type {Box[]} of copper and plated holes, also after the edits */
    this.boxes = [];
    /** @type {Map<Layer, number[]>} the places of the items of tools that their file calls not plated */
    this.unplated = new Map();
    const { stack, drilled, withoutPlating, outline, covers, shown } = takenOf(layers, needed);
    this.stack = stack;
    this.drilled = drilled;
    this.withoutPlating = withoutPlating;
    this.outline = outline;
    this.covers = covers;
    this.shown = shown;
    this.folder = mkdtempSync(join(tmpdir(), NAME));
    try {
      this.room = join(this.folder, "board");
      this.board = new Board(this.shown, new Room(this.room, false, true), program);
      this.load();
      this.edit(edits);
      this.unplated = new Map(this.shown.map((layer) => [layer, this.itemsWithoutPlating(layer)]));
    } catch (fault) {
      this.close();
      throw fault;
    }
  }

  close() {
    rmSync(this.folder, { recursive: true, force: true });
  }

  load() {
    const { board } = this;
    board.load();
    /** @param {Layer} layer */
    const isRefused = ({ name }) => board.loads.get(name)?.isAccepted === false;
    this.refused = this.shown.filter(isRefused).map((layer) => ({ layer, why: board.outcome(layer) }));
    const { missing } = this.stack, numbers = this.stack.copper.map(({ number }) => number);
    if (this.refused.length) {
      Object.assign(this, takenOf(this.layers.filter((layer) => !isRefused(layer)), this.needed));
      // (what a refused file would have been is missed still)
      const present = new Set(this.stack.copper.map(({ number }) => number));
      this.stack.missing = [...new Set([...missing, ...numbers, ...this.stack.missing])].filter((number) => !present.has(number))
        .sort((one, other) => one - other);
    }
    if (!this.painted().length) throw new Failure("the layers of copper paint nothing");
  }

  // The boxes of copper and plated holes.
  painted() {
    return this.drilled.flatMap((layer) => this.board.painted.get(layer.name) ?? []);
  }

  // The texts of the layers after the edits, which are plotted.
  /** @param {string[]} edits */
  edit(edits) {
    this.boxes = this.painted();
    if (!edits.length) return;
    /** @param {Layer} layer */
    const pathOf = (layer) => `edited-${layer.name}`;
    const loads = this.shown.map((layer) => `load ${layer.name} ${layer.kind} ${layer.copy}`);
    const writes = this.shown.map((layer) => `write ${layer.name} ${pathOf(layer)}`);
    const made = edits.map((line) => (LOOKS.includes(wordsOf(line)[0] ?? "") ? "#" : line));
    const replies = runLines(this.program, this.room, [...loads, ...made, ...writes]);
    this.checkEdits(replies.filter((reply) => !reply.isAccepted), loads.length + 1, made.length);
    for (const layer of this.shown) {
      this.edited.set(layer, pathOf(layer));
      const box = this.drilled.includes(layer) ? this.askedAfter(layer).box() : null;
      if (box) this.boxes.push(box);
    }
  }

  // The lines around those of the edits are our own.
  /** @param {Reply[]} refused @param {number} firstOwn @param {number} count */
  checkEdits(refused, firstOwn, count) {
    /** @param {Reply} reply */
    const isOwn = ({ number }) => number >= firstOwn && number < firstOwn + count, other = refused.find((reply) => !isOwn(reply));
    const lines = refused.filter(isOwn).map((reply) => toldLine(refusedLine(reply, firstOwn, this.from)));
    if (lines.length) throw new Failure(lines.join("\n"));
    if (other) throw new Failure(`${other.line}: ${explain(other, meanings())}`);
  }

  // Where the text of a layer is, as it is after the edits.
  /** @param {Layer} layer */
  textAfter(layer) {
    return this.edited.get(layer) ?? layer.text;
  }

  /**
   * A layer as it is after the edits.
   * @param {Layer} layer
   */
  askedAfter(layer) {
    return new AskedLayer(layer.kind, readFileSync(join(this.room, this.textAfter(layer))));
  }

  // The tools of a layer of holes that its file calls not plated.
  /** @param {Layer} layer @returns {Set<number | null>} */
  toolsWithout(layer) {
    return layer.kind === GERBER || !this.drilled.includes(layer) ? new Set() : toolsWithoutPlating(latin1(bytesOf(layer.file)));
  }

  // The items of such tools.
  /** @param {Layer} layer */
  itemsWithoutPlating(layer) {
    const tools = this.toolsWithout(layer);
    if (!tools.size) return [];
    return Array.from(this.askedAfter(layer).items(), headOf)
      .flatMap(({ number }, place) => (tools.has(number) ? [place] : []));
  }

  // The items of a layer as it is before the edits.
  /** @param {Layer} layer */
  items(layer) {
    return new AskedLayer(layer.kind, bytesOf(layer.file)).said();
  }

  /**
   * The window around all copper and holes; `half` moves it by half a pixel.
   * @param {number} pitch
   */
  window(pitch, half = false) {
    const window = windowAtPitch(around([...this.boxes, ...boxOfCovers(this)]), pitch);
    const moved = half ? Math.floor(window.pitch / 2) : 0;
    return { ...window, x: window.x - moved, y: window.y - moved };
  }

  /**
   * The places of a layer's items of tools that its file calls not plated.
   * @param {Layer} layer
   */
  placesWithoutPlating(layer) {
    return this.unplated.get(layer) ?? [];
  }

  /**
   * The picture of a layer; what joins nothing is deleted from holes before, or what is told.
   * @param {Layer} layer
   * @param {PlotWindow} window
   * @param {number[]} dropped places of items
   */
  picture(layer, window, dropped = this.placesWithoutPlating(layer)) {
    progress(`plotting ${layer.file.name}`);
    const file = join(this.folder, "plot.pbm"), fromTheLast = dropped.slice().reverse();
    const lines = [`load it ${layer.kind} ${this.textAfter(layer)}`, ...fromTheLast.map((place) => `delete it ${place}`),
      windowLine(window), "plot it ../plot.pbm"];
    const refused = runLines(this.program, this.room, lines).find((reply) => !reply.isAccepted);
    if (refused) throw new Failure(`${layer.file.name}: ${refused.line}: ${refused.words.join(" ")}`);
    return readPbm(readFileSync(file));
  }

  /** The layers of holes of which some have no plating. */
  get partly() {
    return this.drilled.filter((layer) => this.placesWithoutPlating(layer).length);
  }

  /** The lines of the outline after the edits that are closed, and how many others there are. */
  get outlines() {
    if (!this.outline) return { closed: [], open: 0 };
    return closedLines(Array.from(this.askedAfter(this.outline).items(), linesOfItem).flat());
  }

  // What is cut out of copper: holes without plating, and the outline.
  /** @param {PlotWindow} window */
  cuts(window) {
    const pictures = this.withoutPlating.map((layer) => this.picture(layer, window));
    for (const layer of this.partly) {
      const unplated = new Set(this.placesWithoutPlating(layer)), { count } = this.askedAfter(layer);
      pictures.push(this.picture(layer, window, Array.from({ length: count }, (_, place) => place).filter((place) => !unplated.has(place))));
    }
    const rows = pictures.map((picture) => flatRows(runsOf(picture))), lines = this.outlines.closed;
    if (lines.length) rows.push(pixelsOfLines(lines, new Grid(window)));
    return rows.length ? rows.reduce(union) : null;
  }

  /**
   * The nets at a pitch, and those without the items that tie two nets.
   * @param {PlotWindow} window
   * @returns {{nets: Nets, apart: Nets, grid: Grid}}
   */
  nets(window) {
    const cuts = this.cuts(window);
    /** @param {Runs} runs */
    const cut = (runs) => (cuts ? runsOfFlat(difference(flatRows(runs), cuts), runs.width) : runs);
    const copper = this.stack.copper.map(({ layer }) => cut(runsOf(this.picture(layer, window))));
    const holes = this.stack.holes.map(({ layer, from, to }) => ({ runs: runsOf(this.picture(layer, window)), from, to }));
    progress("finding the nets");
    const nets = netsOf(copper, holes), tied = this.stack.copper.map(({ layer }) => ({ layer, places: this.tiesOf(layer) }));
    if (tied.every(({ places }) => !places.length)) return { nets, apart: nets, grid: new Grid(window) };
    const untied = copper.map((runs, at) => {
      const its = tied[at];
      return its?.places.length ? cut(runsOf(this.picture(its.layer, window, its.places))) : runs;
    });
    return { nets, apart: netsOf(untied, holes), grid: new Grid(window) };
  }

  // The places, after the edits, of the items of copper that have two nets or more by their attributes.
  /** @param {Layer} layer */
  tiesOf(layer) {
    const { items, reading } = this.saidOf(layer), words = new Set();
    items.items.forEach((item, place) => {
      const attributes = reading?.items[place]?.attributes ?? [];
      if ((named(attributes, ".N")?.fields.length ?? 0) > 1) words.add(item.words);
    });
    if (!words.size) return [];
    return Array.from(this.askedAfter(layer).items()).flatMap((item, place) => (words.has(item) ? [place] : []));
  }

  /** The sides of the board in nm: those of the outline's closed lines, else those of copper and plated holes. */
  sides() {
    const places = this.outlines.closed.flat();
    return around(places.length ? places.map(([x, y]) => ({ left: x, low: y, right: x, high: y })) : this.boxes);
  }

  /**
   * All holes after the edits: those of the stack's layers, then those of layers without plating.
   * @returns {import("../../web/nets/index.js").Hole[]}
   */
  holes() {
    const { holes } = this.stack, layers = [...holes.map(({ layer }) => layer), ...this.withoutPlating];
    return layers.flatMap((layer, at) => {
      const tools = this.toolsWithout(layer), isPlated = (/** @type {number | null} */ number) => at < holes.length && !tools.has(number);
      return holesOf(flatItems(this.askedAfter(layer).said()), { isPlated, layer: at, label: layer.name });
    });
  }

  /** The centres of holes without plating. */
  unplatedCentres() {
    return [...this.withoutPlating.flatMap((layer) => padsOf(this.items(layer))),
      ...this.partly.flatMap((layer) => this.unplatedOf(layer))];
  }

  /** The items of each copper layer with what its file says of them. */
  said() {
    return this.stack.copper.map(({ layer }) => this.saidOf(layer));
  }

  /** @param {Layer} layer */
  saidOf(layer) {
    const known = this.known.get(layer);
    if (known) return known;
    const items = this.items(layer), said = { label: layer.name, items, reading: this.attributesOf(layer, items.items.length) };
    this.known.set(layer, said);
    return said;
  }

  /** @param {Layer} layer @param {number} count */
  attributesOf(layer, count) {
    if (layer.kind !== GERBER) return null;
    const reading = readAttributes(bytesOf(layer.file));
    if (reading.count !== count) {
      throw new Failure(`${layer.file.name}: ${reading.count} items by its attributes, and ${count} of the station's`);
    }
    return reading;
  }

  /** @param {Layer} layer */
  unplatedOf(layer) {
    const { items, blocks } = this.items(layer), tools = this.toolsWithout(layer);
    return padsOf({ items: items.filter(({ words }) => tools.has(headOf(words).number)), blocks });
  }

  /** By how much the copies of a panel are moved, as far as repeats and blocks of copper tell. */
  copies() {
    const all = this.stack.copper.flatMap(({ layer }) => copiesOf(this.saidOf(layer).items));
    return [...new Map(all.map((copy) => /** @type {const} */ ([copy.join(" "), copy]))).values()];
  }

  /** The centres of pads and of holes. */
  pads() {
    return [...this.drilled, ...this.withoutPlating].flatMap((layer) => padsOf(this.items(layer)));
  }
}

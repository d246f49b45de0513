// A board: its layers, what camplot replied to each, and what was plotted.

import { readFileSync } from "node:fs";
import { basename, join, normalize, resolve } from "node:path";
import { isPbm, latin1Bytes, utf8 } from "../../web/bytes/index.js";
import { counted } from "../../web/nets/index.js";
import { BY_ATTRIBUTE, Reply, explain, isInWindow, nameParts, windowLine, wordsOf } from "../../web/board/index.js";
import { AskedLayer } from "./asked_layer.js";
import { bytesOf } from "./inputs.js";
import { called } from "./places.js";
import { LAYERS, meanings, runLines } from "./station.js";

/** Commands of a user's own lines that look, and change nothing; what runs the lines for their edits does without them. */
export const LOOKS = ["plot", "write", "redraw", "list", "window"];
/** The refusal of a file that cannot be read or written. */
const UNWRITTEN = 82;

/** @typedef {import("../../web/board/index.js").Layer} Layer */
/** @typedef {import("../../web/board/index.js").PlotWindow} PlotWindow */

/** @param {Layer} layer */
function loadLine(layer) {
  return `load ${layer.name} ${layer.kind} ${layer.copy}`;
}

/** @param {Layer} layer */
function plotLine(layer) {
  return `plot ${layer.name} ${layer.picture}`;
}

// The layers in runs of as many as one run takes.
/** @param {Layer[]} layers */
function partsOf(layers) {
  /** @type {Layer[][]} */
  const parts = [];
  for (let at = 0; at < layers.length; at += LAYERS) parts.push(layers.slice(at, at + LAYERS));
  return parts;
}

/** The layers of a board in a room; each layer's file has a `path`. */
export class Board {
  /**
   * @param {Layer[]} layers from the bottom up
   * @param {import("./rooms.js").Room} room
   * @param {string} program
   */
  constructor(layers, room, program) {
    this.layers = layers;
    this.room = room;
    this.program = program;
    /** @type {Map<string, Reply>} the replies to loads, by the layers' names */
    this.loads = new Map();
    /** @type {Map<string, Reply>} */
    this.plots = new Map();
    /** @type {Map<string, import("../../web/board/index.js").Box | null>} what the layers that load paint */
    this.painted = new Map();
    /** @type {Reply[]} of the lines of a user's own */
    this.edits = [];
    /** The number of the first of these in the script. */
    this.firstOwn = 1;
    /** @type {PlotWindow | null} in which the layers were plotted */
    this.window = null;
  }

  /** Loads each layer, and writes the texts of those that load. */
  load() {
    for (const { text } of this.layers) this.room.path(text);
    for (const { file, copy } of this.layers) this.room.write(copy, bytesOf(file));
    for (const layer of this.layers) {
      const asked = new AskedLayer(layer.kind, bytesOf(layer.file));
      this.loads.set(layer.name, new Reply(1, loadLine(layer), asked.reply.split(" ")));
      if (!asked.isLoaded) {
        for (const name of [layer.text, layer.picture]) this.room.series.drop(name);
        continue;
      }
      this.painted.set(layer.name, asked.box());
      this.room.write(layer.text, asked.text());
    }
  }

  /**
   * The reply to a layer's load.
   * @param {Layer} layer
   */
  loadOf({ name }) {
    const reply = this.loads.get(name);
    if (!reply) throw new Error(`${name} is asked for before the layers are loaded`);
    return reply;
  }

  /** The layers that load. */
  loaded() {
    return this.layers.filter((layer) => this.loadOf(layer).isAccepted);
  }

  /** The boxes of the layers that load and paint something, in nm. */
  boxes() {
    return [...this.painted.values()].flatMap((box) => box ?? []);
  }

  /** The box of the outline: of the one that an attribute names, else of the first that has an item. */
  outline() {
    const outlines = this.loaded().filter((layer) => layer.layerFunction.name === "outline");
    /** @param {Layer} layer */
    const isNamed = (layer) => layer.toldBy === BY_ATTRIBUTE;
    for (const layer of [...outlines.filter(isNamed), ...outlines.filter((other) => !isNamed(other))]) {
      const box = this.painted.get(layer.name);
      if (box) return box;
    }
    return null;
  }

  /**
   * Plots each layer that loads, and then runs the lines of the user's own over the first of the runs.
   * @param {PlotWindow} window
   * @param {string[]} edits
   */
  plot(window, edits) {
    this.window = window;
    /** @type {string[]} */
    const told = [];
    partsOf(this.loaded()).forEach((part, number) => {
      const { lines, firstOwn } = this.script(part, number === 0 ? edits : [], window);
      if (number === 0) this.firstOwn = firstOwn;
      const script = this.room.path(number === 0 ? "script" : `script-${number + 1}`);
      const replies = this.room.watch([basename(script), ...part.map(({ picture }) => picture)],
        () => runLines(this.program, this.room.folder, lines, script));
      for (const layer of part) this.takePlot(layer, replies);
      this.edits.push(...replies.filter((reply) => reply.number >= firstOwn));
      for (const reply of replies) told.push(`${reply.words.join(" ").padEnd(16)} ${reply.line}\n`);
    });
    for (const reply of this.edits) {
      const [command, , path = ""] = wordsOf(reply.line);
      if (reply.isAccepted && (command === "plot" || command === "write")) this.room.series.done(normalize(path));
    }
    this.room.write("replies", latin1Bytes(told.join("")));
  }

  // The reply to a layer's plot. A picture that cannot be written is the one of before.
  /** @param {Layer} layer @param {Reply[]} replies */
  takePlot(layer, replies) {
    const { name, picture } = layer, reply = replies.find(({ line }) => line === plotLine(layer));
    if (!reply) throw new Error(`${name} was not plotted`);
    this.plots.set(name, reply);
    if (reply.isAccepted) return;
    if (reply.refusal === UNWRITTEN) this.room.kept.add(picture);
    else this.room.series.drop(picture);
  }

  // The lines of a run, and the number of the first one that is the user's own.
  /** @param {Layer[]} part @param {string[]} edits @param {PlotWindow} window */
  script(part, edits, window) {
    const lines = [`# the board's layers, plotted by ${called("board")}`];
    for (const layer of this.layers) {
      const reply = this.loadOf(layer);
      if (!reply.isAccepted) lines.push(`# ${reply.words.join(" ")}: ${reply.line}`);
    }
    lines.push(...part.map(loadLine), windowLine(window));
    lines.push(...part.map(plotLine));
    if (edits.length) lines.push("# your own lines");
    return { lines: [...lines, ...edits], firstOwn: lines.length + 1 };
  }

  /**
   * What came of a layer, in a line for people.
   * @param {Layer} layer
   */
  outcome(layer) {
    const loaded = this.loadOf(layer);
    if (!loaded.isAccepted) return explain(loaded, meanings(), bytesOf(layer.file));
    const items = counted(loaded.count, "item"), plotted = this.plots.get(layer.name);
    if (!plotted) return `loaded, ${items}`;
    if (!plotted.isAccepted) return `loaded, ${items}; its plot was ${explain(plotted, meanings())}`;
    const box = this.painted.get(layer.name);
    const beyond = !box || !this.window || isInWindow(this.window, box) ? "" : "; it reaches beyond the window";
    return `loaded, ${items}; plotted as ${layer.picture}${beyond}`;
  }

  /** The refused lines of the user's own. */
  refusedLines() {
    return this.edits.filter((reply) => !reply.isAccepted);
  }

  /** Whether a load, a plot or a line of the user's own was refused. */
  isAnyRefused() {
    return [...this.loads.values(), ...this.plots.values(), ...this.edits].some((reply) => !reply.isAccepted);
  }

  /** Whether any layer or line of the user's own was plotted. */
  hasPictures() {
    return [...this.plots.values(), ...this.edits].some((reply) => reply.isAccepted && wordsOf(reply.line)[0] === "plot");
  }

  // The file of a path in a line, whose characters are the path's bytes.
  /** @param {string} path */
  read(path) {
    const folder = path.startsWith("/") ? [] : [Buffer.from(join(this.room.folder, "/"))];
    return readFileSync(Buffer.concat([...folder, latin1Bytes(path)]));
  }

  /**
   * What a page opens: the layers' files, the accepted lines of the user's own, and what these plotted.
   * @param {string} title
   * @returns {import("../../web/building/index.js").Contents}
   */
  contents(title) {
    const files = this.layers.map(({ file }) => ({ name: file.name, bytes: bytesOf(file) }));
    /** @type {NonNullable<import("../../web/building/index.js").Contents["lines"]>} */
    const lines = [];
    /** @type {NonNullable<import("../../web/building/index.js").Contents["pictures"]>} */
    const pictures = [];
    const plotted = this.window && windowLine(this.window);
    let window = plotted;
    for (const { line, number } of this.edits.filter((reply) => reply.isAccepted)) {
      const [command = "", layer = "", path = "", loaded = ""] = wordsOf(line);
      if (command === "window") window = line;
      if (command === "plot" && window !== null) pictures.push({ name: `${path} (line ${number})`, layer, window, bytes: this.read(path) });
      if (command === "load") lines.push({ line, bytes: this.read(loaded) });
      else if (!LOOKS.includes(command)) lines.push({ line: utf8(latin1Bytes(line)) });
    }
    return { title, files, lines, pictures: pictures.filter(({ bytes }) => isPbm(bytes)), window: plotted };
  }

  /**
   * What the page is called.
   * @param {string[]} paths the files or the folder that were named
   */
  title(paths) {
    const [path = "."] = paths;
    if (paths.length === 1) return basename(resolve(path));
    return nameParts(this.layers.at(-1)?.file.name ?? "").stem;
  }
}

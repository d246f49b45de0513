// A layer of a board that is checked, in a station of its own, as the follower's station has it now. Its pictures are kept as runs for
// as long as its text and the window are the same.

import { DRILL, GERBER, boxFrom, windowLine } from "../board/index.js";
import { Station, headOf, itemsOf, linesOf } from "../station/index.js";
import { latin1 } from "../bytes/index.js";
import { named } from "../attributes/index.js";
import { linesOfItem, runsOf, saidItems, toolsWithoutPlating } from "../nets/index.js";
import { pictureOf } from "./pictures.js";

const text = new TextEncoder();
// What it is called in its station.
const NAME = "it";

/** A layer cannot be drawn. */
export class Undrawn extends Error {}

export class CheckedLayer {
  /**
   * @param {WebAssembly.Module} compiled
   * @param {import("./follower.js").Followed} known what the follower knows of it since it was loaded
   * @param {Uint8Array} bytes its canonical text now
   */
  constructor(compiled, known, bytes) {
    this.compiled = compiled;
    this.layer = known.layer;
    this.known = known;
    this.bytes = bytes;
    /** @type {import("../nets/index.js").SaidItems | null} */
    this.items = null;
    /** @type {Map<string, import("../nets/index.js").Runs>} */
    this.pictures = new Map();
    this.box = this.withStation((station) => boxFrom(linesOf(station, `box ${NAME}`)[0]));
  }

  /**
   * Whether this is a layer of these bytes.
   * @param {{layer: import("../board/index.js").Layer}} known
   * @param {Uint8Array} bytes
   */
  isSame({ layer }, bytes) {
    return layer === this.layer && bytes.length === this.bytes.length && bytes.every((byte, at) => byte === this.bytes[at]);
  }

  /** @template T @param {(station: Station) => T} use @returns {T} */
  withStation(use) {
    const station = new Station(this.compiled, 1);
    try {
      this.apply(station, `load ${NAME} ${this.layer.kind} file`, this.bytes);
      return use(station);
    } finally {
      station.close();
    }
  }

  /** @param {Station} station @param {string} line @param {Uint8Array | null} file */
  apply(station, line, file = null) {
    const code = station.apply(text.encode(line), file);
    if (code) throw new Undrawn(`${this.layer.name} cannot be checked: ${line.split(" ")[0]} was refused ${code}`);
  }

  /** The items now, each with how far it reaches. */
  get said() {
    return this.items ??= this.withStation((station) => saidItems(station, NAME));
  }

  /** The lines of an outline's items. */
  get lines() {
    return this.withStation((station) => Array.from(itemsOf(station, NAME), linesOfItem).flat());
  }

  /**
   * The tools that its file calls not plated.
   * @returns {ReadonlySet<number | null>}
   */
  get tools() {
    return this.layer.kind === DRILL ? toolsWithoutPlating(latin1(this.layer.file.bytes)) : new Set();
  }

  /**
   * The places of items that some condition holds of.
   * @param {(words: string) => boolean} isWanted
   * @returns {number[]}
   */
  placesOf(isWanted) {
    return this.said.items.flatMap(({ words }, place) => (isWanted(words) ? [place] : []));
  }

  /** The places of the items of tools without plating. */
  get unplated() {
    const { tools } = this;
    return tools.size ? this.placesOf((words) => tools.has(headOf(words).number)) : [];
  }

  /** The places of the items that tie two nets or more, by their attributes. */
  get ties() {
    const { items: { items }, reading } = this.known, tied = new Set();
    if (this.layer.kind !== GERBER) return [];
    reading?.items.forEach(({ attributes }, place) => {
      if ((named(attributes, ".N")?.fields.length ?? 0) > 1) tied.add(items[place]?.words);
    });
    return tied.size ? this.placesOf((words) => tied.has(words)) : [];
  }

  /**
   * Its picture without some items.
   * @param {import("../board/index.js").PlotWindow} window
   * @param {number[]} dropped
   */
  runs(window, dropped = []) {
    const line = windowLine(window), key = `${line} ${dropped.join(" ")}`, known = this.pictures.get(key);
    if (known) return known;
    for (const other of this.pictures.keys()) if (!other.startsWith(`${line} `)) this.pictures.delete(other);
    const made = this.withStation((station) => {
      for (const place of [...dropped].reverse()) this.apply(station, `delete ${NAME} ${place}`);
      this.apply(station, line);
      this.apply(station, `plot ${NAME} view`);
      return runsOf(pictureOf(station.file));
    });
    this.pictures.set(key, made);
    return made;
  }
}

// What the page tells of the board in words: an item, what a text finds, all items that share something, and what the board is.
//
// What files say is read when it is asked for the first time: the lines that the station accepted are kept until then, and are carried
// through (web/attributes/carry.js), so that an item that an edit moved in its list has what its file said of it.

import { NotJoined, begun, carried, saidOf } from "../attributes/index.js";
import { ToldLayer, aboutBoard, alikeOf, componentsOf, fileSays, find, indexOf, itemWords, sentenceOf, textOf } from "../telling/index.js";
import { asked, linesOf } from "../station/index.js";
import { countsOf, described, entriesOf, lineOf } from "./answers.js";
import { mayHaveAttributes } from "./attributes.js";
import { under } from "./lying.js";

/** @typedef {import("../attributes/index.js").Said} Said */
/** @typedef {import("../telling/index.js").Index} Index */
/** @typedef {ReturnType<typeof fileSays>} FileSays */
/** @typedef {Board.Telling["layers"]} Layers */

// So many items are read at once; so many are lit at most, each of which is asked for its box and is drawn.
const READ = 10000, LIT = 20000;

// Lines after which something else may be told.
const CHANGING = new Set(["load", "insert", "delete", "move", "reorder", "aperture", "polarity", "tool", "diameter", "setattr", "dropattr",
  "undo", "redo", "begin", "end", "abort"]);

const PERCENT = 37;

// Of a unit that is none, which a browser may have kept, mm.
/** @param {string} unit */
const unitOf = (unit) => (unit === "in" || unit === "mil" ? unit : "mm");

// A file without attributes of items is read as far as its last definition: for names of macros, and comments.
/** @param {Uint8Array} bytes */
function headOf(bytes) {
  const end = bytes.lastIndexOf(PERCENT) + 1, head = new Uint8Array(end + 5);
  head.set(bytes.subarray(0, end));
  head.set(new TextEncoder().encode("\nM02*"), end);
  return head;
}

// What a file says, its items only where they are as many as the station has; null where it can't be joined.
/** @param {string | undefined} kind @param {Uint8Array} bytes @param {number} count @returns {FileSays | null} */
function saysOf(kind, bytes, count) {
  try {
    if (kind === "drill") return fileSays("drill", bytes);
    const says = mayHaveAttributes(bytes) ? fileSays("gerber", bytes) : { ...fileSays("gerber", headOf(bytes)), items: null };
    return says.items?.length === count ? says : { ...says, items: null };
  } catch (fault) {
    if (fault instanceof NotJoined) return null;
    throw fault;
  }
}

/** What is told of the board of a station, with the descriptions that the page has of its layers (web/machine/telling.js). */
export class Telling {
  /** @param {import("../station/index.js").Station} station @param {number} depth how many steps it can undo */
  constructor(station, depth) {
    this.station = station;
    this.carried = begun(depth);
    // What was accepted and not carried yet, and what the file of each layer says.
    /** @type {{ line: string, bytes: Uint8Array | null, count: number }[]} */
    this.waiting = [];
    /** @type {Map<string, FileSays | null>} */
    this.says = new Map();
    // How many lines have changed the board; the components of its files, and the index, with what they were made of.
    this.changes = 0;
    /** @type {{ count: number, components: ReturnType<typeof componentsOf> }} */
    this.known = { count: -1, components: new Map() };
    /** @type {{ key: string, index: Index } | null} */
    this.made = null;
  }

  // A line that the station accepted; of a load with its file and the number of its items.
  /** @param {string} line @param {Uint8Array | null} bytes @param {number} count */
  heard(line, bytes = null, count = 0) {
    const [word = ""] = line.trim().split(/[ \t]+/, 1);
    if (!CHANGING.has(word)) return;
    this.changes++;
    this.made = null;
    this.waiting.push({ line, bytes, count });
  }

  catchUp() {
    for (const { line, bytes, count } of this.waiting.splice(0)) {
      const [word, name = "", kind] = line.trim().split(/[ \t]+/), says = word === "load" && bytes ? saysOf(kind, bytes, count) : null;
      if (word === "load") this.says.set(name, says);
      this.carried = carried(this.carried, line, says?.items ?? null);
    }
  }

  // A layer with some of its items: the words of each, and what is said of it.
  /** @param {Layers[number]} its @param {string[]} items @param {Iterable<Said> | null} said */
  layer({ name, label, shows, kind, fileName }, items, said) {
    const { station } = this;
    return new ToldLayer({ name, label, shows, kind, fileName, items, said, entries: linesOf(station, `entries ${name}`),
      attributes: linesOf(station, `attributes ${name}`), says: this.says.get(name) ?? null });
  }

  // All layers whole.
  /** @param {Layers} layers */
  whole(layers) {
    this.catchUp();
    return layers.map((layer) => this.layer(layer, this.itemsOf(layer.name), saidOf(this.carried, layer.name)));
  }

  /** @param {string} name */
  itemsOf(name) {
    const lines = [];
    for (let from = 0, isMore = true; isMore; from += READ) {
      const part = linesOf(this.station, `items ${name} ${from} ${READ}`);
      let count = 0;
      for (const line of part) {
        if (line[0] !== " ") count++;
        lines.push(line);
      }
      isMore = count === READ;
    }
    return lines;
  }

  // What the files say of components: edits add nothing to that.
  /** @param {Layers} layers */
  components(layers) {
    if (this.known.count !== this.says.size) {
      const read = layers.flatMap((layer) => {
        const says = this.says.get(layer.name);
        return says?.items ? new ToldLayer({ ...layer, items: [], entries: [], attributes: [], says }) : [];
      });
      this.known = { count: this.says.size, components: componentsOf(read) };
    }
    return this.known.components;
  }

  // An item in words; null where the station has none there.
  /** @param {Worker.StationAsked["words"]} message @returns {Worker.Words | null} */
  words({ name, place, layers, unit }) {
    this.catchUp();
    const { code, answer } = asked(this.station, `item ${name} ${place}`), layer = layers.find((other) => other.name === name);
    if (code || !layer) return null;
    const said = saidOf(this.carried, name)?.at(place), one = this.layer(layer, answer.split("\n").filter((line) => line), said ? [said] : []);
    const told = itemWords(one, 0, { unit: unitOf(unit), components: this.components(layers) });
    return told && { ...told, name, place, sentence: sentenceOf(told), alike: alikeOf(one, 0),
      box: lineOf(this.station, `box ${name} ${place}`) };
  }

  // The item that a click at a point picks, in words.
  /** @param {Worker.StationAsked["at"]} message */
  at({ x, y, pile, layers, unit }) {
    const { found } = under(this.station, { pile, x, y, below: null });
    return found && this.words({ ...found, layers, unit });
  }

  /** @param {Board.Telling} telling */
  index({ layers, unit }) {
    const key = JSON.stringify([this.changes, unit, layers]);
    if (this.made?.key !== key) this.made = { key, index: indexOf(this.whole(layers), unitOf(unit)) };
    return this.made.index;
  }

  // Tells how many items lights have.
  counts() {
    const counts = countsOf(this.station);
    /** @type {(lights: import("../telling/index.js").Lights) => number} */
    return ({ layer, places }) => places ? places.length : counts.get(layer) ?? 0;
  }

  // What a text finds, with the number of items that each result lights.
  /** @param {Worker.StationAsked["find"]} message @returns {Worker.Finds} */
  find({ query, most, layers, unit }) {
    const { count, shown, groups } = find(this.index({ layers, unit }), query, { most }), countOf = this.counts();
    return { query, count, shown, groups: groups.map((group) => ({ ...group, results: group.results.map(({ lights, ...result }) =>
      ({ ...result, items: lights.reduce((sum, light) => sum + countOf(light), 0) })) })) };
  }

  // The places of all items that share something, so many at most, and how many there are.
  /** @param {Board.Asked["shared"]} message */
  shared({ of: { kind, id }, most, layers, unit }) {
    /** @type {Board.Place[]} */
    const places = [], lights = this.index({ layers, unit }).get(kind, id)?.lights ?? [], countOf = this.counts();
    for (const light of lights) {
      for (let at = 0; at < countOf(light) && places.length < most; at++) places.push({ name: light.layer, place: light.places?.[at] ?? at });
    }
    return { places, count: lights.reduce((sum, light) => sum + countOf(light), 0) };
  }

  // The same with their words and boxes, and the definitions of their layers.
  /** @param {Board.Asked["lit"]} message */
  lit(message) {
    const { places, count } = this.shared({ ...message, most: LIT }), { station } = this;
    return { items: places.map((place) => described(station, place)), count,
      entries: entriesOf(station, [...new Set(places.map(({ name }) => name))]) };
  }

  /** @param {Worker.StationAsked["about"]} message */
  about({ layers, unit, job, fileNames }) {
    const about = aboutBoard(this.whole(layers), { unit: unitOf(unit), job, fileNames });
    return { rows: about.rows, text: textOf(about) };
  }
}

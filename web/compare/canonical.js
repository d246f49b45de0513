// The items of a layer by its canonical text, as a station writes it (docs/formats.md, "Canonical Gerber files" and
// "Canonical drill files"): each in the words of a line that inserts it, but with the number of what its aperture, block or
// tool *is* in place of the number that the file gives it. So two files that number the same apertures in another way have
// the same items.

import { latin1 } from "../bytes/index.js";

/** A text is none that a station writes. */
export class NotCanonical extends Error {
  /** @param {string} line */
  constructor(line) {
    super(`no line of a canonical text: ${line.slice(0, 60)}`);
  }
}

/**
 * What apertures, blocks and tools are, each under a number of its own, which several layers share.
 * - an aperture: its template and its sizes, `C,0.500000`; of primitives `M` and a line for each;
 * - a block: `B` and a line for each object, as an item;
 * - a tool: `T` and its diameter.
 */
export class Shapes {
  constructor() {
    /** @type {string[]} by their numbers */
    this.texts = [];
    /** @type {Map<string, number>} */
    this.numbers = new Map();
  }

  /** @param {string} text */
  numberOf(text) {
    let number = this.numbers.get(text);
    if (number === undefined) {
      number = this.texts.length;
      this.numbers.set(text, number);
      this.texts.push(text);
    }
    return number;
  }
}

/**
 * A layer as it is compared.
 * @typedef {object} CanonicalLayer
 * @property {"gerber" | "drill"} kind
 * @property {string[]} items in order; the objects of a repeat stand in its words, each after a line end
 * @property {number[]} entries the number that the file gives to the aperture, block or tool of each item; -1 of a region
 *   and of a repeat
 */

/** @param {string} text @returns {Generator<string>} */
function* linesOf(text) {
  for (let at = 0; at < text.length;) {
    const found = text.indexOf("\n", at), end = found < 0 ? text.length : found;
    yield text.slice(at, end);
    at = end + 1;
  }
}

/**
 * Millimetres with six decimals, in whole nm, as a word.
 * @param {string} text
 */
function nmOf(text) {
  return String(Number(text.replace(".", "")));
}

const OPERATION = /^X(-?\d+)Y(-?\d+)(?:I(-?\d+)J(-?\d+))?D0([123])\*$/;
const DEFINITION = /^ADD(\d+)(.*)$/;
const REPEAT = /^SRX(\d+)Y(\d+)I(-?[\d.]+)J(-?[\d.]+)$/;
const MOVE = "2", FLASH = "3";
const MODES = new Map([["G01*", "l"], ["G02*", "cw"], ["G03*", "ccw"]]);

// Objects in order, and what they stand in.
class Home {
  /** @param {string} head of a repeat @param {number} number of a block */
  constructor(head = "", number = -1) {
    this.head = head;
    this.number = number;
    /** @type {string[]} */
    this.items = [];
    /** @type {number[]} */
    this.entries = [];
  }
}

class GerberReader {
  /** @param {Shapes} shapes */
  constructor(shapes) {
    this.shapes = shapes;
    /** @type {Map<number, number>} what the apertures and blocks of the file are */
    this.known = new Map();
    /** @type {Map<string, string>} */
    this.macros = new Map();
    /** @type {{name: string, lines: string[]} | null} the open one */
    this.macro = null;
    this.layer = new Home();
    this.homes = [this.layer];
    this.polarity = "dark";
    this.mirror = "r";
    this.turn = "0";
    this.aperture = -1;
    this.shape = -1;
    this.mode = "l";
    this.x = "0";
    this.y = "0";
    /** @type {string[] | null} the words of the open one */
    this.region = null;
  }

  /** @param {string} line */
  read(line) {
    if (this.macro) this.macroLine(line, this.macro);
    else if (line.charCodeAt(0) === 88) this.operation(line);
    else if (line.startsWith("%")) this.extended(line);
    else this.word(line);
  }

  /** @param {string} line @param {{name: string, lines: string[]}} macro */
  macroLine(line, { name, lines }) {
    if (line !== "%") {
      lines.push(line);
      return;
    }
    this.macros.set(name, `M${lines.join("\n")}`);
    this.macro = null;
  }

  /** @param {string} line */
  extended(line) {
    const text = line.slice(1, line.endsWith("*%") ? -2 : -1), name = text.slice(0, 2);
    switch (name) {
      case "FS":
      case "MO":
      case "TF": break;
      case "AM": this.macro = { name: text.slice(2), lines: [] }; break;
      case "AD": this.define(line, text); break;
      case "AB": this.block(text); break;
      case "SR": this.repeat(line, text); break;
      case "LP": this.polarity = text === "LPC" ? "clear" : "dark"; break;
      case "LM": this.mirror = text === "LMX" ? "m" : "r"; break;
      case "LR": this.turn = text.slice(2); break;
      default: throw new NotCanonical(line);
    }
  }

  /** @param {string} line @param {string} text */
  define(line, text) {
    const [, number, what] = DEFINITION.exec(text) ?? [];
    if (what === undefined) throw new NotCanonical(line);
    this.known.set(Number(number), this.shapes.numberOf(this.macros.get(what) ?? what));
  }

  /** @param {string} text */
  block(text) {
    if (text !== "AB") {
      this.homes.push(new Home("", Number(text.slice(3))));
      return;
    }
    const { number, items } = this.closed(text);
    this.known.set(number, this.shapes.numberOf(["B", ...items].join("\n")));
  }

  /** @param {string} line @param {string} text */
  repeat(line, text) {
    if (text !== "SR") {
      const [, columns, rows, i, j] = REPEAT.exec(text) ?? [];
      if (i === undefined || j === undefined) throw new NotCanonical(line);
      this.homes.push(new Home(`repeat ${columns} ${rows} ${nmOf(i)} ${nmOf(j)}`));
      return;
    }
    const { head, items } = this.closed(text);
    this.keep([`${head} ${items.length}`, ...items].join("\n  "), -1);
  }

  /** @param {string} line */
  closed(line) {
    const home = this.homes.pop();
    if (!home || !this.homes.length) throw new NotCanonical(line);
    return home;
  }

  /** @param {string} words @param {number} entry */
  keep(words, entry) {
    const home = this.homes.at(-1) ?? this.layer;
    home.items.push(words);
    home.entries.push(entry);
  }

  /** @param {string} line */
  word(line) {
    const mode = MODES.get(line);
    if (mode) {
      this.mode = mode;
    } else if (line === "G36*") {
      this.region = [];
    } else if (line === "G37*") {
      if (!this.region) throw new NotCanonical(line);
      this.keep(`region ${this.polarity} ${this.region.join(" ")}`, -1);
      this.region = null;
    } else if (line.startsWith("D")) {
      this.select(line);
    } else if (line !== "G75*" && line !== "M02*") {
      throw new NotCanonical(line);
    }
  }

  /** @param {string} line */
  select(line) {
    this.aperture = Number(line.slice(1, -1));
    const shape = this.known.get(this.aperture);
    if (shape === undefined) throw new NotCanonical(line);
    this.shape = shape;
  }

  // A circle is the same under each turn.
  get turned() {
    return this.shapes.texts[this.shape]?.startsWith("C,") ? "r0" : this.mirror + this.turn;
  }

  /** @param {string} line */
  operation(line) {
    const [, x, y, i, j, code] = OPERATION.exec(line) ?? [];
    if (x === undefined || y === undefined) throw new NotCanonical(line);
    if (!this.region && this.shape < 0 && code !== MOVE) throw new NotCanonical(line);
    if (this.region) this.trace(this.region, code === MOVE, x, y, i, j);
    else if (code === FLASH) this.keep(`flash ${this.shape} ${x} ${y} ${this.turned} ${this.polarity}`, this.aperture);
    else if (code !== MOVE) this.stroke(x, y, i, j);
    this.x = x;
    this.y = y;
  }

  /** @param {string} x @param {string} y @param {string | undefined} i @param {string | undefined} j */
  stroke(x, y, i, j) {
    const ends = `${this.shape} ${this.x} ${this.y} ${x} ${y}`;
    if (i === undefined) this.keep(`draw ${ends} ${this.turned} ${this.polarity}`, this.aperture);
    else this.keep(`arc ${ends} ${this.centre(i, j)} ${this.mode} ${this.polarity}`, this.aperture);
  }

  /** @param {string} i @param {string | undefined} j */
  centre(i, j) {
    return `${Number(this.x) + Number(i)} ${Number(this.y) + Number(j)}`;
  }

  /**
   * @param {string[]} words
   * @param {boolean} isStart
   * @param {string} x
   * @param {string} y
   * @param {string | undefined} i
   * @param {string | undefined} j
   */
  trace(words, isStart, x, y, i, j) {
    if (isStart) words.push(x, y);
    else if (i === undefined) words.push("l", x, y);
    else words.push(this.mode, x, y, this.centre(i, j));
  }
}

const TOOL = /^T(\d+)C([\d.]+)$/;
const PLACE = /^(G0[01])?X(-?[\d.]+)Y(-?[\d.]+)$/;
const SILENT = ["M48", "METRIC", "%", "G05", "M15", "M30", ""];

class DrillReader {
  /** @param {Shapes} shapes */
  constructor(shapes) {
    this.shapes = shapes;
    /** @type {Map<number, number>} */
    this.known = new Map();
    this.layer = new Home();
    this.tool = -1;
    this.shape = -1;
    /** @type {string[] | null} the points of the open one */
    this.rout = null;
  }

  /** @param {string} line */
  read(line) {
    const [, code, x, y] = PLACE.exec(line) ?? [];
    if (x !== undefined && y !== undefined) {
      if (this.shape < 0) throw new NotCanonical(line);
      this.place(code, nmOf(x), nmOf(y));
    } else if (line === "M16" && this.rout) {
      this.keep(`rout ${this.shape} ${this.rout.join(" ")}`);
      this.rout = null;
    } else if (line.startsWith("T")) {
      this.toolLine(line);
    } else if (!SILENT.includes(line)) {
      throw new NotCanonical(line);
    }
  }

  /** @param {string | undefined} code @param {string} x @param {string} y */
  place(code, x, y) {
    if (code === undefined) this.keep(`hit ${this.shape} ${x} ${y}`);
    else if (code === "G00") this.rout = [x, y];
    else this.rout?.push(x, y);
  }

  /** @param {string} words */
  keep(words) {
    this.layer.items.push(words);
    this.layer.entries.push(this.tool);
  }

  /** @param {string} line */
  toolLine(line) {
    const [, number, diameter] = TOOL.exec(line) ?? [];
    if (diameter !== undefined) {
      this.known.set(Number(number), this.shapes.numberOf(`T${diameter}`));
      return;
    }
    this.tool = Number(line.slice(1));
    const shape = this.known.get(this.tool);
    if (shape === undefined) throw new NotCanonical(line);
    this.shape = shape;
  }
}

/**
 * The items of a layer by its canonical text.
 * @param {"gerber" | "drill"} kind
 * @param {Uint8Array} bytes
 * @param {Shapes} shapes
 * @returns {CanonicalLayer}
 * @throws {NotCanonical}
 */
export function readCanonical(kind, bytes, shapes) {
  const reader = kind === "drill" ? new DrillReader(shapes) : new GerberReader(shapes);
  for (const line of linesOf(latin1(bytes))) reader.read(line);
  const { items, entries } = reader.layer;
  return { kind, items, entries };
}

// Which attributes the items of a Gerber file have.
//
// The station reads attributes of apertures and of objects (%TA..*%, %TO..*%, %TD..*%) and keeps none of them, since
// they change nothing of what is painted. This reads the bytes of the file that a station has loaded, and gives what the
// file says of each item, as the station counts them from 0 (docs/formats.md, docs/questions.md):
//
//     const { items, apertures } = readAttributes(bytes);
//     named(items[4].attributes, ".N")?.fields       [ "GND" ]
//     named(apertures.get(10), ".AperFunction")      what the file says of aperture 10
//
// Gerber Layer Format Specification, "Attributes":
// - an object has the object attributes that hold where its D01 or D03 stands; a region those that hold at the first
//   segment of its contour, and the aperture attributes too, since it has no aperture that could have them;
// - an aperture has the aperture attributes that hold at its AD, a block those at its AB;
// - the objects of a repeat and of a block have what holds where each of them stands. A repeat itself has none, and a
//   flash of a block is an object as any other;
// - a name has one attribute, the one that was set last; TD takes one away by its name, or all.
// The comments `G04 #@! TA..*`, `TO` and `TD` count as the commands that they hold.

import { latin1 } from "../bytes/index.js";
import { Commands, NotJoined, commentOf, packed, standardComment } from "./commands.js";
import { Dictionary, NONE } from "./dictionary.js";

export { NotJoined } from "./commands.js";
export { named, plainText } from "./text.js";

/** @typedef {readonly import("./text.js").Attribute[]} Attributes */

// A G code, coordinates, and a D code.
const WORD = /^(?:G(\d+))?([XYIJ][-+.\dXYIJ]*)?(?:D(\d+))?$/;
const BLOCK = /^D(\d+)$/;
const REPEAT = /^(?:X(\d+))?(?:Y(\d+))?(?:I[-+.\d]*)?(?:J[-+.\d]*)?$/;
const DEFINITION = /^D(\d+)/;
const END = /^M0*2$/;
/** @type {Record<number, string>} */
const KINDS = { 1: "draw", 2: "arc", 3: "arc" };
const PLOT = 1, MOVE = 2, FLASH = 3;
const FIRST_NUMBER = 10;

/** @type {readonly Said[]} */
const NO_OBJECTS = Object.freeze([]);

/** What a file says of an item, and of the objects of one that is a repeat. */
export class Said {
  /**
   * @param {Attributes} attributes in the order of their names
   * @param {readonly Said[]} objects
   */
  constructor(attributes, objects = NO_OBJECTS) {
    this.attributes = attributes;
    this.objects = objects;
  }
}

/** An item, or an object of a block or a repeat, of which a file says nothing. */
export const NOTHING = new Said(NONE);

// Objects in order, and how the lines of the station's answer begin that name them.
class Home {
  /** @param {string} head of a repeat */
  constructor(head = "") {
    this.head = head;
    /** @type {Said[]} */
    this.said = [];
    /** @type {string[]} */
    this.heads = [];
  }
}

class Reader {
  /** @param {Uint8Array} bytes */
  constructor(bytes) {
    this.commands = new Commands(latin1(bytes));
    this.dictionary = new Dictionary();
    this.layer = new Home();
    /** @type {Map<number, Attributes>} */
    this.apertures = new Map();
    /** @type {Map<number, Home>} */
    this.blocks = new Map();
    /** @type {{number: number, attributes: Attributes, home: Home}[]} the open blocks, the innermost last */
    this.open = [];
    /** @type {Home | null} the open one */
    this.repeat = null;
    // What was said last.
    this.last = NOTHING;
    // What an operation plots.
    this.kind = "draw";
    /** @type {number | null} */
    this.aperture = null;
    /** @type {{aperture: number | null, heads: Record<string, string>}} those of the items of an aperture, by their kinds */
    this.known = { aperture: null, heads: {} };
    /** @type {number | null} */
    this.operation = null;
    this.isInRegion = false;
    // How much else is told that paints nothing: comments, names (IN, LN), and file attributes in comments.
    this.others = { comments: 0, names: 0, fileAttributes: 0 };
    /** @type {Attributes | null} what holds at the first segment of the contour; null before it */
    this.contour = null;
    this.isEnded = false;
  }

  read() {
    const { commands } = this;
    while (!this.isEnded) {
      if (!commands.next()) throw new NotJoined(`byte ${commands.at}`, "the end (M02) is missing");
      if (commands.isExtended) this.extended(commands.extended());
      else this.word(commands.text);
    }
  }

  // Extended commands.

  /** @param {{name: string, text: string}} command */
  extended({ name, text }) {
    switch (name) {
      case "TA":
      case "TO":
      case "TD": this.attribute(name, text); break;
      case "IN":
      case "LN": this.others.names++; break;
      case "AD": this.define(packed(text)); break;
      case "AB": this.block(packed(text)); break;
      case "SR": this.stepAndRepeat(packed(text)); break;
      // No other tells anything of which objects there are.
    }
  }

  /** @param {string} name @param {string} text */
  attribute(name, text) {
    if (name === "TD") this.dictionary.drop(text);
    else this.dictionary.set(name, text);
  }

  /** @param {string} text */
  define(text) {
    const found = DEFINITION.exec(text);
    if (!found) throw this.commands.fault("no aperture");
    this.apertures.set(Number(found[1]), this.dictionary.apertures);
  }

  /** @param {string} text */
  block(text) {
    if (text === "") {
      const closed = this.open.pop();
      if (!closed) throw this.commands.fault("no block is open");
      this.apertures.set(closed.number, closed.attributes);
      this.blocks.set(closed.number, closed.home);
      return;
    }
    const found = BLOCK.exec(text);
    if (!found) throw this.commands.fault("no block");
    this.open.push({ number: Number(found[1]), attributes: this.dictionary.apertures, home: new Home() });
  }

  /** @param {string} text */
  stepAndRepeat(text) {
    const found = REPEAT.exec(text);
    if (!found) throw this.commands.fault("no repeat");
    this.endRepeat();
    const columns = Number(found[1] ?? 1), rows = Number(found[2] ?? 1);
    if (columns * rows > 1) this.repeat = new Home(`repeat ${columns} ${rows}`);
  }

  endRepeat() {
    const { repeat } = this;
    this.repeat = null;
    if (repeat === null || repeat.said.length === 0) return;
    this.layer.said.push(new Said(NONE, repeat.said));
    this.layer.heads.push(repeat.head);
    for (const head of repeat.heads) this.layer.heads.push(`  ${head}`);
  }

  get home() {
    return this.open.at(-1)?.home ?? this.repeat ?? this.layer;
  }

  /** @param {string} head @param {Attributes} attributes */
  keep(head, attributes) {
    if (attributes === NONE) this.last = NOTHING;
    else if (attributes !== this.last.attributes) this.last = new Said(attributes);
    this.home.said.push(this.last);
    this.home.heads.push(head);
  }

  // Words.

  /** @param {string} text */
  word(text) {
    const comment = commentOf(text);
    if (comment !== null) {
      this.comment(comment);
      return;
    }
    const found = WORD.exec(text) ?? WORD.exec(packed(text));
    if (found) {
      const [, g, coordinates, d] = found;
      if (g !== undefined) this.function(Number(g));
      if (d !== undefined || coordinates !== undefined) this.operate(d === undefined ? null : Number(d));
    } else if (END.test(packed(text))) {
      this.endRepeat();
      this.isEnded = true;
    } else {
      throw this.commands.fault("no word");
    }
  }

  /** @param {string} text */
  comment(text) {
    const standard = standardComment(text);
    if (!standard) this.others.comments++;
    else if (standard.name === "TF") this.others.fileAttributes++;
    else this.attribute(standard.name, standard.text);
  }

  /** @param {number} code */
  function(code) {
    const kind = KINDS[code];
    if (kind) {
      this.kind = kind;
    } else if (code === 36) {
      this.isInRegion = true;
    } else if (code === 37) {
      this.endContour();
      this.isInRegion = false;
    }
  }

  /** @param {number | null} code */
  operate(code) {
    if (code !== null && code >= FIRST_NUMBER) {
      this.aperture = code;
      return;
    }
    // Coordinates alone plot, if the last operation did.
    if (code === null && this.operation !== PLOT) throw this.commands.fault("coordinates without a D code");
    this.operation = code ?? PLOT;
    if (this.isInRegion) this.trace();
    else if (this.operation === FLASH) this.keep(this.headOf("flash"), this.dictionary.objects);
    else if (this.operation === PLOT) this.keep(this.headOf(this.kind), this.dictionary.objects);
  }

  /**
   * The same text for each item of a kind and an aperture.
   * @param {string} kind
   */
  headOf(kind) {
    const { aperture } = this;
    if (this.known.aperture !== aperture) this.known = { aperture, heads: {} };
    return this.known.heads[kind] ??= `${kind} ${aperture}`;
  }

  trace() {
    if (this.operation === PLOT) this.contour ??= this.dictionary.regions;
    else if (this.operation === MOVE) this.endContour();
  }

  endContour() {
    if (this.contour !== null) this.keep("region", this.contour);
    this.contour = null;
  }
}

/**
 * What a Gerber file says of its items.
 * @param {Uint8Array} bytes a file that a station has loaded
 * @returns {Reading}
 * @throws {NotJoined} where no station loads it
 *
 * @typedef {object} Reading
 * @property {readonly Said[]} items of each item, in the order of the items
 * @property {number} count how many items there are
 * @property {Map<number, Attributes>} apertures of each aperture and block, by its number, in the order of the
 *   station's entries
 * @property {Map<number, Objects>} blocks of the objects of each block, by its number
 * @property {readonly string[]} heads how each line of the station's answer to `items` begins
 * @property {{comments: number, names: number, fileAttributes: number}} others how much else the file tells that paints
 *   nothing and that no station keeps: comments, `%IN..*%` and `%LN..*%`, and file attributes in comments
 *
 * @typedef {object} Objects
 * @property {readonly Said[]} said of each object, in the order of the objects
 * @property {readonly string[]} heads how each line of the station's answer to `entry` begins that names one
 */
export function readAttributes(bytes) {
  const reader = new Reader(bytes);
  reader.read();
  const { layer, apertures, blocks, others } = reader;
  return { items: layer.said, count: layer.said.length, apertures, blocks, heads: layer.heads, others };
}

/**
 * Compares a reading with the station's own answer, and throws where an item is not of the same kind and aperture.
 * @param {{heads: readonly string[]}} reading of a layer, or of a block
 * @param {readonly string[]} lines the lines of the answer to `items NAME 0 COUNT`; of a block those that name its
 *   objects, without the two spaces before each
 * @param {string} what is compared
 * @throws {NotJoined}
 */
export function checkJoined({ heads }, lines, what = "line") {
  for (let at = 0; at < Math.max(heads.length, lines.length); at++) {
    if (heads[at] !== undefined && `${lines[at] ?? ""} `.startsWith(`${heads[at]} `)) continue;
    throw new NotJoined(`${what} ${at}`, `the file has ${heads[at]?.trim() ?? "none"}, and the station ${
      lines[at]?.trim().slice(0, 60) ?? "none"}`);
  }
}

// A plain model of canonical texts, beside the station: the items that stand in them, in the words of `insert`, as
// docs/formats.md has both ("Canonical Gerber files", "Canonical drill files", "Scripts"). It checks nothing of a text.

import { latin1 } from "../bytes/text.js";

/** @typedef {{words: string, objects: Item[]}} Item a repeat's words say what it is, and it alone has objects */

const COMMAND = /%([^%]*)%|([^*%]*)\*/g;
const OPERATION = /^X(-?\d+)Y(-?\d+)(?:I(-?\d+)J(-?\d+))?D0([123])$/;
const REPEAT = /^SRX(\d+)Y(\d+)I(.+)J(.+)\*$/;
const PLACE = /^(G00|G01|)X(.+)Y(.+)$/;
// Of a length in mm with six decimals.
const nm = (text) => Number(text.replace(".", ""));

class Gerber {
  constructor() {
    /** @type {Item[][]} the layer, and what is open in it: a block or a repeat */
    this.homes = [[]];
    Object.assign(this, { number: 0, polarity: "dark", mirror: "r", turn: "0", arc: "", from: [0, 0], contour: [], isInRegion: false });
  }

  keep(words, objects = []) {
    this.homes[this.homes.length - 1].push({ words, objects });
  }

  extended(command) {
    const repeat = REPEAT.exec(command);
    if (/^LP/.test(command)) this.polarity = command === "LPD*" ? "dark" : "clear";
    if (/^LM/.test(command)) this.mirror = command === "LMN*" ? "r" : "m";
    if (/^LR/.test(command)) this.turn = command.slice(2, -1);
    if (/^ABD|^SRX/.test(command)) this.homes.push([]);
    if (repeat) this.head = `repeat ${repeat[1]} ${repeat[2]} ${nm(repeat[3])} ${nm(repeat[4])}`;
    if (command === "AB*") this.homes.pop();
    if (command === "SR*") {
      const objects = this.homes.pop();
      this.keep(`${this.head} ${objects.length}`, objects);
    }
  }

  word(word) {
    const operation = OPERATION.exec(word);
    if (operation) this.operation(operation.slice(1, 5).map(Number), operation[3] !== undefined, operation[5]);
    else if (/^D/.test(word)) this.number = Number(word.slice(1));
    else if (/^G0[123]$/.test(word)) this.arc = ["", "cw", "ccw"][Number(word.slice(1)) - 1];
    else if (word === "G36" || word === "G37") this.begin(word === "G36");
  }

  operation([x, y, i, j], isArc, code) {
    const { number, from: [sx, sy], polarity } = this, turn = this.mirror + this.turn;
    const round = `${x} ${y} ${sx + i} ${sy + j}`;
    this.from = [x, y];
    if (code === "3") this.keep(`flash ${number} ${x} ${y} ${turn} ${polarity}`);
    else if (this.isInRegion && code === "2") this.begin(true, [`region ${polarity} ${x} ${y}`]);
    else if (this.isInRegion) this.contour.push(isArc ? `${this.arc} ${round}` : `l ${x} ${y}`);
    else if (code === "1" && isArc) this.keep(`arc ${number} ${sx} ${sy} ${round} ${this.arc} ${polarity}`);
    else if (code === "1") this.keep(`draw ${number} ${sx} ${sy} ${x} ${y} ${turn} ${polarity}`);
  }

  // A contour ends, where one of some segments is open, and another may begin.
  begin(isInRegion, contour = []) {
    if (this.contour.length > 1) this.keep(this.contour.join(" "));
    Object.assign(this, { isInRegion, contour });
  }
}

function gerberItems(text) {
  const gerber = new Gerber();
  for (const [, extended, word] of text.matchAll(COMMAND)) {
    if (extended === undefined) gerber.word(word.trim());
    else gerber.extended(extended);
  }
  return gerber.homes[0];
}

function drillItems(text) {
  /** @type {Item[]} */
  const items = [];
  let tool = 0, points = [];
  for (const line of text.slice(text.indexOf("\n%\n")).split("\n")) {
    const [, mode, ...place] = PLACE.exec(line) ?? [], at = place.map(nm).join(" ");
    if (mode === "") items.push({ words: `hit ${tool} ${at}`, objects: [] });
    else if (mode) points = mode === "G00" ? [at] : [...points, at];
    else if (/^T\d/.test(line)) tool = Number(line.slice(1));
    else if (line === "M16") items.push({ words: `rout ${tool} ${points.join(" ")}`, objects: [] });
  }
  return items;
}

/**
 * The items of a canonical text in order.
 * @param {Uint8Array} bytes
 * @returns {Item[]}
 */
export function plainItems(bytes) {
  const text = latin1(bytes);
  return text.startsWith("M48\n") ? drillItems(text) : gerberItems(text);
}

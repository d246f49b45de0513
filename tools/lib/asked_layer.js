// A layer in a station of its own, which answers questions about it (docs/questions.md): the page's module, in this process.

import { boxFrom } from "../../web/board/index.js";
import { Failure } from "../../web/convert/index.js";
import { latin1 } from "../../web/bytes/index.js";
import { Station, itemsOf, linesOf } from "../../web/station/index.js";
import { saidItems } from "../../web/nets/index.js";
import { touched } from "../../web/worker/index.js";
import { neededModule } from "./module.js";

// What the layer is called in its station.
const NAME = "it";
// No coordinate of a question is greater, in nm.
const FAR = 4_000_000_000;
const LINE_END = 10;
/** @param {string} text */
const bytesOf = (text) => new TextEncoder().encode(text);
/** @param {number} place */
const within = (place) => Math.max(-FAR, Math.min(FAR, place));

/** A station that a question is never refused of: it has the memory for the answer, or the tool stops. */
class Answering extends Station {
  /** @param {Uint8Array} question */
  ask(question) {
    const code = super.ask(question);
    if (code) throw new Failure(`the question '${latin1(question)}' was refused ${code}`);
    return code;
  }
}

/** @typedef {keyof Board.Box} Side */

/** A layer that was loaded. */
export class AskedLayer {
  /**
   * @param {string} kind the word of `load`
   * @param {Uint8Array} bytes its file
   * @throws {Failure} where there is no module
   */
  constructor(kind, bytes) {
    this.station = new Answering(neededModule(), 1);
    this.isLoaded = this.run(`load ${NAME} ${kind} file`, bytes);
    /** The reply to its load. */
    this.reply = latin1(this.station.reply).trimEnd();
    /** How many items it has. */
    this.count = this.isLoaded ? Number(this.reply.split(" ")[1]) : 0;
  }

  /** @param {string} line @param {Uint8Array | null} file */
  run(line, file = null) {
    return this.station.apply(bytesOf(line), file) === 0;
  }

  /**
   * The lines of the answer to a question about the layer.
   * @param {string} what its first word
   * @param {string} more what stands behind the layer's name
   */
  ask(what, more = "") {
    return linesOf(this.station, `${what} ${NAME} ${more}`);
  }

  /** The items in order, each in the words that `insert` takes; of a repeat, what it is. */
  items() {
    return itemsOf(this.station, NAME);
  }

  /** The items in order, each with its place; a repeat with the words of its objects. */
  *itemsWithObjects() {
    let place = -1, words = "";
    /** @type {string[]} */
    let objects = [];
    for (const line of this.ask("items", `0 ${this.count}`)) {
      if (line.startsWith(" ")) {
        objects.push(line.trimStart());
        continue;
      }
      if (place >= 0) yield { place, words, objects };
      [place, words, objects] = [place + 1, line, []];
    }
    if (place >= 0) yield { place, words, objects };
  }

  /** The items in order, each with how far it reaches. */
  said() {
    return saidItems(this.station, NAME);
  }

  /** The canonical text. */
  text() {
    if (!this.run(`write ${NAME} text`)) throw new Failure(`the text was ${latin1(this.station.reply)}`);
    return this.station.file;
  }

  /**
   * The places of the items whose boxes hold a point.
   * @param {number} x
   * @param {number} y
   */
  placesAt(x, y) {
    const box = { left: x, low: y, right: x, high: y };
    return touched(this.station, { names: [NAME], box, most: Infinity }).places.map(({ place }) => place);
  }

  /**
   * The box of the item at a place.
   * @param {number} place
   */
  boxAt(place) {
    return boxFrom(this.ask("box", String(place))[0]);
  }

  /**
   * The box of an item that is not in the layer.
   * @param {string} words as `insert` takes them
   */
  boxOf(words) {
    if (!this.run(`insert ${NAME} ${this.count} ${words}`)) throw new Failure(`'${words}' was ${latin1(this.station.reply)}`);
    const box = this.boxAt(this.count);
    this.run("undo");
    return box;
  }

  /**
   * The least box at whole nm that every item lies in which paints something; null where none does. Of an arc of the layer's
   * own it has what that passes, and not the whole circle as the answer to `box`.
   */
  box() {
    const box = boxFrom(this.ask("box")[0]);
    if (!box) return null;
    const count = this.countIn(box);
    /** @type {[side: Side, other: Side][]} */
    const sides = [["left", "right"], ["low", "high"], ["right", "left"], ["high", "low"]];
    for (const [side, other] of sides) box[side] = this.innermost(box, side, box[other], count);
    return box;
  }

  // The innermost place of a side of a box that has so many items still, on the way to the other side.
  /** @param {Board.Box} box @param {Side} side @param {number} end @param {number} count */
  innermost(box, side, end, count) {
    /** @param {number} place */
    const holds = (place) => this.countIn({ ...box, [side]: place }) === count, inwards = Math.sign(end - box[side]);
    let held = box[side];
    if (inwards === 0 || !holds(held + inwards)) return held;
    for (let lost = end + inwards; Math.abs(lost - held) > 1;) {
      const middle = Math.floor((held + lost) / 2);
      if (holds(middle)) held = middle;
      else lost = middle;
    }
    return held;
  }

  // How many items lie in a box.
  /** @param {Board.Box} box */
  countIn({ left, low, right, high }) {
    this.station.ask(bytesOf(`in ${NAME} ${[left, low, right, high].map(within).join(" ")}`));
    const lines = this.station.file;
    let count = 0;
    for (let at = lines.indexOf(LINE_END); at >= 0; at = lines.indexOf(LINE_END, at + 1)) count++;
    return count;
  }
}

/**
 * Words of old files: their codes in any order, and what is written of them.
 *
 * @typedef {[string, string]} Code  a letter and its number
 * @typedef {string | import("./dictionary.js").Slot} Piece  what is written, a command or a place that is settled later
 */

import { Unsaid } from "../report.js";
import { ANEW } from "./advice.js";
import { packed } from "./cut.js";
import { missingForm, missingQuadrants, missingUnit } from "./front.js";
import { writeOperation } from "./placed_words.js";

const CODE = /([A-Z])([+-]?[0-9.]*)/g;

/**
 * @param {import("./state.js").State} state
 * @param {string} raw  a word with its *
 * @returns {{pieces: Piece[], isEnd: boolean}}
 */
export function rewriteWord(state, raw) {
  const text = packed(raw.slice(0, -1));
  const capitals = text.toUpperCase();
  const codes = [...capitals.matchAll(CODE)].map(([, letter = "", number = ""]) => /** @type {Code} */ ([letter, number]));
  if (codes.map(([letter, number]) => letter + number).join("") !== capitals) {
    throw new Unsaid(`${text.slice(0, 40)}* is no command that is known: ${ANEW}`);
  }
  if (capitals !== text) {
    state.change("small letters are written as capitals");
  }
  if (text === "") {
    return { pieces: [raw], isEnd: false };
  }
  const front = missingQuadrants(state, capitals);
  const word = new Word(state, withoutNumber(state, codes));
  const pieces = word.pieces();
  const isSame = pieces.length === 1 && byValue(pieces[0] ?? "") === byValue(`${text}*`);
  return { pieces: [...front, ...(isSame ? [raw] : pieces)], isEnd: word.isEnd };
}

/** @param {import("./state.js").State} state @param {Code[]} codes */
function withoutNumber(state, codes) {
  if (codes[0]?.[0] !== "N") {
    return codes;
  }
  state.change("line numbers (N) are left out");
  return codes.slice(1);
}

/**
 * A word with code numbers by value: `G01X5D01*` and `G1X5D1*` are the same.
 * @param {Piece} word
 */
function byValue(word) {
  return typeof word === "string" ? word.replace(/([GDM])0+(?=\d)/g, "$1") : "";
}

class Word {
  /** @param {import("./state.js").State} state @param {Code[]} codes */
  constructor(state, codes) {
    this.state = state;
    this.codes = codes;
    this.isEnd = false;
    this.shown = codes.flat().join("").slice(0, 40);
  }

  /** The words that its codes become: general codes, the choice of an aperture, the operation, the end. */
  pieces() {
    const places = this.codes.filter(([letter]) => "XYIJ".includes(letter));
    /** @type {{G: number[], D: number[], M: number[]}} */
    const numbers = { G: [], D: [], M: [] };
    for (const [letter, text] of this.codes) {
      if (!"XYIJ".includes(letter)) {
        const same = letter === "G" || letter === "D" || letter === "M" ? numbers[letter] : this.unknown(letter, text);
        same.push(this.codeNumber(letter, text));
      }
    }
    const apertures = numbers.D.filter((number) => number > 9);
    const operations = numbers.D.filter((number) => number < 10);
    this.check(apertures, operations, numbers.M, places);
    const hasOperation = places.length > 0 || operations.length > 0;
    // No extended command stands in a region.
    const isFirst = places.length > 0 || numbers.G.includes(36);
    const front = isFirst ? [...missingForm(this.state), ...missingUnit(this.state)] : [];
    const { words, mode } = this.general(numbers.G, hasOperation);
    const standsAlone = this.codes.length === 2 && numbers.G[0] === 54;
    /** @type {Piece[]} */
    const pieces = [...front, ...words.map((word) => `${word}*`), ...this.selection(apertures, standsAlone)];
    if (hasOperation) {
      pieces.push(...writeOperation(this.state, places, operations[0] ?? 0, mode));
    }
    pieces.push(...this.end(numbers.M));
    this.tellOrder(pieces);
    return pieces;
  }

  /** @param {string} letter @param {string} text @returns {never} */
  unknown(letter, text) {
    throw new Unsaid(`${letter}${text} is no code that is known: ${ANEW}`);
  }

  /** @param {string} letter @param {string} text */
  codeNumber(letter, text) {
    return /^\d+$/.test(text) ? Number(text) : this.unknown(letter, text);
  }

  /** @param {number[]} apertures @param {number[]} operations @param {number[]} ends @param {Code[]} places */
  check(apertures, operations, ends, places) {
    const isMany = operations.length > 1 || apertures.length > 1 || ends.length > 1;
    if (isMany || operations.some((number) => number < 1 || number > 3)) {
      throw new Unsaid(`${this.shown}* has codes that are not known together: ${ANEW}`);
    }
    const [letter, text] = this.codes[this.codes.length - 1] ?? ["", ""];
    if (apertures.length > 0 && places.length > 0 && operations.length === 0 && letter === "D" && Number(text) > 9) {
      throw new Unsaid(`${this.shown}* has coordinates before the choice of an aperture: write the choice before them`);
    }
  }

  /**
   * The words of the G codes, and the mode that is written in the operation's own word.
   * @param {number[]} codes
   * @param {boolean} hasOperation
   */
  general(codes, hasOperation) {
    const { state } = this;
    /** @type {string[]} */
    const words = [];
    let mode = 0;
    for (const number of codes) {
      if (number >= 1 && number <= 3) {
        words.push(...(mode === 0 ? [] : [`G0${mode}`]));
        mode = state.mode = number;
      } else if ([36, 37, 70, 71, 74, 75, 90].includes(number)) {
        words.push(`G${number}`);
        this.obey(number);
      } else if (number === 55) {
        state.change("G55 is left out: it does nothing");
      } else if (number === 91) {
        throw new Unsaid("G91, incremental coordinates: choose absolute ones");
      } else if (number !== 54) {
        this.unknown("G", String(number).padStart(2, "0"));
      }
    }
    if (mode !== 0 && !hasOperation) {
      words.push(`G0${mode}`);
      state.writtenMode = mode;
      mode = 0;
    }
    return { words, mode };
  }

  /** @param {number} number */
  obey(number) {
    const { state } = this;
    if (number === 36 || number === 37) {
      state.inRegion = number === 36;
    } else if (number === 70 || number === 71) {
      state.tellUnit(number === 70 ? "inch" : "mm");
    } else if (number !== 90) {
      state.quadrants = state.writtenQuadrants = number;
    }
  }

  /**
   * The choice of an aperture; of one whose definition waits, a place that is settled with it.
   * @param {number[]} apertures
   * @param {boolean} standsAlone
   * @returns {Piece[]}
   */
  selection(apertures, standsAlone) {
    const { state } = this;
    const [selected] = apertures;
    if (selected === undefined) {
      return [];
    }
    const aperture = state.dictionary.of(selected);
    if (aperture === null) {
      throw new Unsaid(`aperture ${selected} is selected, and not defined before it: ${ANEW}, which has the apertures`);
    }
    const { number } = aperture;
    state.selected = selected;
    state.aperture = aperture;
    state.writtenAperture = number;
    state.refresh();
    const word = `${standsAlone ? "G54" : ""}D${number}*`;
    if (aperture.isKept) {
      return [word];
    }
    const slot = { text: "" };
    aperture.selections.push({ slot, text: word });
    return [slot];
  }

  /** @param {number[]} ends */
  end(ends) {
    const { state } = this;
    const [end] = ends;
    if (end === undefined) {
      return [];
    }
    if (end === 1) {
      state.change("M01 is left out: it does nothing");
      return [];
    }
    if (end !== 0 && end !== 2) {
      this.unknown("M", String(end).padStart(2, "0"));
    }
    if (end === 0) {
      state.change("M00 is written as M02");
    }
    this.isEnd = true;
    return ["M02*"];
  }

  /**
   * Tells of a word that became several or none, or whose codes stood in another order.
   * @param {Piece[]} pieces
   */
  tellOrder(pieces) {
    const { state, codes } = this;
    const texts = pieces.flatMap((piece) => (typeof piece === "string" && !piece.startsWith("%") ? [piece] : []));
    const letters = codes.map(([letter]) => letter).join("");
    const kept = texts.join("").replace(/[^A-Z]/g, "");
    const hasChoice = codes.some(([letter, text]) => letter === "G" && Number(text) === 54);
    const isWritten = texts.some((text) => text.startsWith("G54"));
    if (hasChoice && !isWritten && !pieces.some((piece) => typeof piece !== "string")) {
      state.change("G54 is left out: the choice of an aperture means the same");
    }
    const sorted = (/** @type {string} */ text) => [...text].sort().join("");
    const isSplit = pieces.filter((piece) => typeof piece !== "string" || !piece.startsWith("%")).length > 1;
    if (isSplit && letters.length >= kept.length) {
      state.change("several codes in one word are split");
    } else if (letters !== kept && sorted(letters) === sorted(kept)) {
      state.change("codes are written in the order of today's form");
    }
  }
}

/** Operations: their coordinates in the form that is written, arcs under G75, and what has to stand before them. */

import { Unsaid } from "../report.js";
import { nearest, rational } from "../exact.js";
import { ANEW, NEAREST } from "./advice.js";
import { SIGNED, signedOffsets } from "./arcs.js";
import { forDraw, forFlash, forHull } from "./uses.js";

const NUMBER = /^[+-]?(\d+\.?\d*|\.\d+)$/;
const REPEATED = "write the code that is meant, or give --repeat where the one before is";
const FIRST = "before any of these: write the code that is meant, or give --repeat, which takes them as a move";
/** How far, in steps, an arc of radius 0 may end from its start where --nearest lets it be a line. */
const CLOSE_STEPS = 3;

/**
 * @param {import("./state.js").State} state
 * @param {[string, string][]} places  the letters X, Y, I, J and their numbers
 * @param {number} given  1 to 3, or 0 where no code stands
 * @param {number} mode  1 to 3, or 0 where no code stands
 * @returns {string[]} what is written
 */
export function writeOperation(state, places, given, mode) {
  const operation = new Operation(state, places, given, mode);
  return operation.written();
}

class Operation {
  /**
   * @param {import("./state.js").State} state
   * @param {[string, string][]} places
   * @param {number} given
   * @param {number} mode
   */
  constructor(state, places, given, mode) {
    this.state = state;
    this.mode = mode;
    /** Whether it is an arc of radius 0 that is written as a line. */
    this.isLine = false;
    /** The numbers as they are written, and by value, by their letters. */
    /** @type {Record<string, string>} */
    this.texts = {};
    /** @type {Record<string, number>} */
    this.values = {};
    for (const [letter, text] of places) {
      this.read(letter, text);
    }
    this.code = given || this.repeated();
    this.isCodeGiven = given !== 0;
    /** @type {[number, number]} */
    this.end = [this.values.X ?? state.x, this.values.Y ?? state.y];
  }

  /** @param {string} letter @param {string} text */
  read(letter, text) {
    const { state } = this;
    if (this.values[letter] !== undefined) {
      throw new Unsaid(`a coordinate stands twice: ${ANEW}`);
    }
    if (!NUMBER.test(text)) {
      throw new Unsaid(`${letter}${text} is no number: ${ANEW}`);
    }
    const form = state.toldForm;
    const value = form.steps(letter, text);
    this.values[letter] = value;
    const staysSo = form.isRead && /^[+-]?\d{1,15}$/.test(text);
    if (form.isRead && text.includes(".")) {
      state.change("coordinates with a point are written in the format");
    }
    this.texts[letter] = staysSo ? text : String(value);
  }

  /** The code of an operation without one, which camplot takes for D01 alone. */
  repeated() {
    const { state } = this;
    if (state.lastCode === 1) {
      return 1;
    }
    if (!state.options.repeat) {
      throw new Unsaid(state.lastCode === 0 ? `coordinates without D01, D02 or D03 ${FIRST}`
        : `coordinates without D01, D02 or D03 after D0${state.lastCode}: ${REPEATED}`);
    }
    state.change(state.lastCode === 0 ? "D02 is written where the first coordinates have no code: a plotter begins with its " +
      "pen up" : `D0${state.lastCode} is written again, where it was left out`);
    return state.lastCode || 2;
  }

  written() {
    const { state, code } = this;
    state.lastCode = code;
    if (code === 2 || state.inRegion) {
      return code === 1 ? this.drawn(0, []) : this.word(0);
    }
    if (code === 3) {
      const { number, before } = forFlash(state);
      const front = [...before, ...this.settings(), ...this.selection(number)];
      state.readyFlash = number;
      return [...front, ...this.word(number)];
    }
    const isArc = state.mode !== 1 && !this.isPoint();
    const found = forDraw(state, isArc);
    return found === null ? this.hull() : this.drawn(found.number, found.before);
  }

  /** Whether an arc has radius 0: where it ends at its start it is a draw of no length. */
  isPoint() {
    const { state, end } = this;
    if (this.values.I || this.values.J) {
      return false;
    }
    const away = Math.max(Math.abs(end[0] - state.x), Math.abs(end[1] - state.y));
    if (away > 0 && !(away <= CLOSE_STEPS && state.options.nearest)) {
      throw new Unsaid("an arc of radius 0 that does not end where it starts: choose a format of more decimals; or G01 " +
        `is missing before a line${away <= CLOSE_STEPS ? `; ${NEAREST}` : ""}`);
    }
    return true;
  }

  /**
   * A draw with an aperture that camplot draws with, or a segment of a region.
   * @param {number} number
   * @param {string[]} before
   */
  drawn(number, before) {
    const { state } = this;
    /** @type {string[]} */
    let front = [];
    if (state.mode !== 1) {
      front = this.arc();
    }
    const settings = number === 0 ? [] : [...this.settings(), ...this.selection(number)];
    return [...before, ...settings, ...front, ...this.word(number)];
  }

  /** Makes an arc one that camplot reads; what has to stand before it. */
  arc() {
    const { state } = this;
    if (this.isPoint()) {
      const isLine = this.end[0] !== state.x || this.end[1] !== state.y;
      state.change(isLine ? "an arc of radius 0 is written as the line to its end" :
        "an arc of radius 0 is written as a draw of no length", isLine ? "an arc as a line" : undefined);
      delete this.texts.I;
      delete this.texts.J;
      this.isLine = true;
      return [];
    }
    if (state.quadrants === 0) {
      throw new Unsaid("an arc with neither G74 nor G75 before it: give --arcs single where each is at most a quarter " +
        "of a circle and its I and J have no sign, else --arcs multi");
    }
    if (state.quadrants === 74) {
      this.sign();
    }
    if (state.writtenQuadrants === 75) {
      return [];
    }
    state.writtenQuadrants = 75;
    return ["G75*"];
  }

  /** Gives the offsets of an arc of one quadrant the signs that they have under G75. */
  sign() {
    const { state, end, values } = this;
    const form = state.toldForm;
    const step = 10 ** (form.targetDecimals - Math.min(...form.decimals));
    const [i, j] = signedOffsets([state.x, state.y], end, [values.I ?? 0, values.J ?? 0], state.mode === 2, step);
    this.giveSign("I", i);
    this.giveSign("J", j);
    state.change(SIGNED);
  }

  /** @param {"I" | "J"} letter @param {number} value */
  giveSign(letter, value) {
    const text = this.texts[letter];
    if (text !== undefined) {
      this.values[letter] = value;
      this.texts[letter] = (value < 0 ? "-" : "") + text.replace(/^[+-]/, "");
    }
  }

  /** The mirror and the turn of flashes, where others are in force in what is written. */
  settings() {
    const { state } = this;
    return settingsOf(state, state.mirror, state.quarters);
  }

  /** @param {number} number */
  selection(number) {
    const { state } = this;
    if (number === state.writtenAperture) {
      return [];
    }
    state.writtenAperture = number;
    state.refresh();
    return [`D${number}*`];
  }

  /**
   * The operation's own word.
   * @param {number} number
   */
  word(number) {
    const { state, texts, values, code } = this;
    const mode = this.isLine ? 1 : state.mode;
    const isModeNeeded = code === 1 && state.writtenMode !== mode && this.mode === 0;
    const modeText = this.isLine ? "G01" : this.mode !== 0 || isModeNeeded ? `G0${mode}` : "";
    state.writtenMode = modeText === "" ? state.writtenMode : mode;
    const codeText = this.isCodeGiven || code !== 1 || state.writtenCode !== 1 ? `D0${code}` : "";
    state.writtenCode = code;
    [state.x, state.y] = this.end;
    const isLine = mode === 1;
    state.said.add(code, mode, number, ...this.end, isLine ? 0 : values.I ?? 0, isLine ? 0 : values.J ?? 0);
    const places = ["X", "Y", "I", "J"].map((letter) => (texts[letter] === undefined ? "" : letter + texts[letter]));
    return [`${modeText}${places.join("")}${codeText}*`];
  }

  /** A draw as the flash of the hull that it covers, and a move to its end. */
  hull() {
    const { state, end } = this;
    /** @type {[number, number]} */
    const start = [state.x, state.y];
    /** @type {import("./placing.js").Place} */
    const way = [this.nm(end[0]) - this.nm(start[0]), this.nm(end[1]) - this.nm(start[1])];
    const { number, before } = forHull(state, way);
    const pieces = [...before, ...settingsOf(state, "N", 0), ...this.selection(number)];
    const place = (/** @type {[number, number]} */ [x, y], /** @type {2 | 3} */ code) => {
      state.said.add(code, 1, code === 3 ? number : 0, x, y, 0, 0);
      return `X${x}Y${y}D0${code}*`;
    };
    pieces.push(place(start, 3));
    if (way.some((length) => length !== 0n)) {
      pieces.push(place(end, 2));
    }
    state.writtenCode = way.some((length) => length !== 0n) ? 2 : 3;
    [state.x, state.y] = end;
    return this.mode === 0 ? pieces : [`G0${this.writeMode()}*`, ...pieces];
  }

  writeMode() {
    this.state.writtenMode = this.mode;
    return this.mode;
  }

  /**
   * A coordinate as camplot reads it, in nm.
   * @param {number} steps
   */
  nm(steps) {
    const { toldForm: form, lengthUnit } = this.state;
    const size = lengthUnit === "mm" ? 1_000_000n : 25_400_000n;
    return nearest(rational(BigInt(steps) * size, 10n ** BigInt(form.targetDecimals)));
  }
}

/**
 * The commands that put another mirror and turn in force in what is written.
 * @param {import("./state.js").State} state
 * @param {import("./placing.js").Mirror} mirror
 * @param {number} quarters
 */
function settingsOf(state, mirror, quarters) {
  /** @type {string[]} */
  const commands = [];
  if (state.writtenMirror !== mirror) {
    commands.push(`%LM${mirror}*%`);
    state.writtenMirror = mirror;
  }
  if (state.writtenQuarters !== quarters) {
    commands.push(`%LR${90 * quarters}*%`);
    state.writtenQuarters = quarters;
  }
  if (commands.length > 0) {
    state.refresh();
  }
  return commands;
}

/**
 * Nearly all words of nearly all files: the choice of an aperture and an operation with codes in any order, read byte by
 * byte, and kept or written anew without a text for each. What is more than that is left to `words.js`.
 *
 * With it `tools/to_gerber`, without loading what it made, takes a seventh to a tenth of the time that it takes without it
 * for 10^5 flashes and draws, and a thirteenth to a sixteenth for 10^6: 1.3 s in place of 20 s where nothing is changed, and
 * 3.3 s in place of 51 s where each coordinate is (node 20).
 */

import { SIGNED, offsetsThatFit } from "./arcs.js";
import { read, word } from "./quick_reader.js";

const LETTERS = "XYIJ";
const POWERS = Array.from({ length: 32 }, (_, power) => 10 ** power);

/** @typedef {import("./state.js").State} State */
/** @typedef {import("./form.js").Form} Form */
const LIMIT = 10 ** 15;

/** @type {(axis: number) => number} the value of a place */
const valueOf = (axis) => /** @type {number} */ (word.values[axis]);


/**
 * Finds the values of the places; false where one does not fit the format.
 * @param {Form} form
 */
function scale(form) {
  for (let axis = 0; axis < 4; axis++) {
    if (word.places[axis] !== 0) {
      const fraction = word.fractions[axis] ?? -1;
      const more = form.isRead && fraction < 0 ? 0 : form.zerosBehind(axis % 2, word.counts[axis] ?? 0, fraction);
      const value = more < 0 ? LIMIT : (word.digits[axis] ?? 0) * (POWERS[more] ?? LIMIT);
      if (value >= LIMIT) {
        return false;
      }
      word.values[axis] = word.negative[axis] !== 0 && value !== 0 ? -value : value;
    } else {
      word.values[axis] = 0;
    }
  }
  return true;
}

/**
 * Reads the word that begins where the cutter stands, and keeps it or writes it anew.
 * @param {import("./state.js").State} state
 * @returns {boolean} whether it did; else the word is to be read by `words.js`
 */
export function passQuickWord(state) {
  const { cutter, bytes } = state;
  if (!read(bytes, cutter.start)) {
    return false;
  }
  const hasOperation = word.hasPlaces || word.code !== 0;
  if (!hasOperation && (word.selection === 0 ? word.mode === 0 || word.has54 : word.mode !== 0)) {
    return false;
  }
  if (word.has54 && word.selection === 0 || word.selection !== 0 && !state.selectPlain(word.selection)) {
    return false;
  }
  if (hasOperation && !operate(state)) {
    return false;
  }
  if (!hasOperation && word.mode !== 0) {
    state.mode = state.writtenMode = word.mode;
  }
  const isChosenToo = word.selection !== 0 && hasOperation;
  const isRewritten = word.hasPlaces && (word.hasPoint || !state.form?.isRead);
  if (word.hasNumber || word.hasSmall || word.isSigned || isChosenToo || isRewritten || !word.isOrdered) {
    state.line = cutter.line;
    write(state, hasOperation);
    tell(state, isChosenToo);
  }
  cutter.end = word.end;
  cutter.lineAtEnd = cutter.line;
  return true;
}

/**
 * Does what an operation says, where it can be written without more; else answers false.
 * @param {State} state
 */
function operate(state) {
  const code = word.code === 0 && state.lastCode === 1 && state.writtenCode === 1 ? 1 : word.code;
  if (state.form === null || state.unit === null || code === 0 || !scale(state.form)) {
    return false;
  }
  if (state.quadrants === 0 && (word.places[2] !== 0 || word.places[3] !== 0)) {
    return false;
  }
  const mode = word.mode === 0 ? state.mode : word.mode;
  const isUnsigned = code === 1 && mode !== 1 && state.quadrants === 74 && state.writtenQuadrants === 75;
  if (isUnsigned && !sign(state, state.form, mode) || !mayStay(state, code, mode, isUnsigned)) {
    return false;
  }
  if (word.mode !== 0) {
    state.mode = state.writtenMode = mode;
  }
  state.x = word.places[0] !== 0 ? valueOf(0) : state.x;
  state.y = word.places[1] !== 0 ? valueOf(1) : state.y;
  state.lastCode = state.writtenCode = code;
  const aperture = code === 2 || state.inRegion ? 0 : state.writtenAperture;
  state.said.add(code, mode, aperture, state.x, state.y, valueOf(2), valueOf(3));
  return true;
}

/**
 * Gives the offsets of an arc of one quadrant their signs; false where `words.js` has to tell why it cannot.
 * @param {State} state
 * @param {Form} form
 * @param {number} mode
 */
function sign(state, form, mode) {
  /** @type {[number, number]} */
  const end = [word.places[0] !== 0 ? valueOf(0) : state.x, word.places[1] !== 0 ? valueOf(1) : state.y];
  const step = 10 ** (form.targetDecimals - Math.min(...form.decimals));
  const signed = offsetsThatFit([state.x, state.y], end, [valueOf(2), valueOf(3)], mode === 2, step);
  if (typeof signed === "string") {
    return false;
  }
  [word.values[2], word.values[3]] = signed;
  word.isSigned = true;
  return true;
}

/** @param {State} state @param {number} code @param {number} mode @param {boolean} isSigned */
function mayStay(state, code, mode, isSigned) {
  if (code !== 1) {
    return code === 2 || state.inRegion || state.plainFlash || state.readyFlash === state.writtenAperture;
  }
  if (word.mode === 0 && state.writtenMode !== mode) {
    return false;
  }
  if (mode === 1) {
    return state.inRegion || state.plainDraw;
  }
  const isRead = isSigned || state.quadrants === 75 && state.writtenQuadrants === 75;
  return isRead && (word.values[2] !== 0 || word.values[3] !== 0) && (state.inRegion || state.plainArc);
}

/** @param {State} state @param {boolean} hasOperation */
function write({ form, output, cutter }, hasOperation) {
  output.copyTo(cutter.start);
  if (word.selection !== 0) {
    output.putText(hasOperation ? `D${word.selection}*\n` : `${word.has54 ? "G54" : ""}D${word.selection}*`);
  }
  if (hasOperation || word.mode !== 0) {
    output.putText(word.mode === 0 ? "" : `G0${word.mode}`);
    for (let axis = 0; axis < 4; axis++) {
      if (word.places[axis] !== 0) {
        output.putText(LETTERS.charAt(axis));
        if (form?.isRead && (word.fractions[axis] ?? -1) < 0) {
          copyNumber(output, axis);
        } else {
          output.putText(`${valueOf(axis)}`);
        }
      }
    }
    output.putText(word.code === 0 ? "*" : `D0${word.code}*`);
  }
  output.copied = word.end;
  output.isChanged = true;
}

/**
 * Writes a number as it stands, but for the sign of an offset that got one.
 * @param {State["output"]} output
 * @param {number} axis
 */
function copyNumber(output, axis) {
  const start = word.starts[axis] ?? 0, end = word.ends[axis] ?? 0;
  const isSigned = word.isSigned && axis > 1;
  if (isSigned && valueOf(axis) < 0) {
    output.putText("-");
  }
  const hasSign = end - start > (word.counts[axis] ?? 0);
  output.copied = start + (isSigned && hasSign ? 1 : 0);
  output.copyTo(end);
}

/** @param {State} state @param {boolean} isChosenToo */
function tell(state, isChosenToo) {
  if (word.hasSmall) {
    state.change("small letters are written as capitals");
  }
  if (word.hasNumber) {
    state.change("line numbers (N) are left out");
  }
  if (word.has54 && isChosenToo) {
    state.change("G54 is left out: the choice of an aperture means the same");
  }
  if (isChosenToo) {
    state.change("several codes in one word are split");
  } else if (!word.isOrdered) {
    state.change("codes are written in the order of today's form");
  }
  if (word.isSigned) {
    state.change(SIGNED);
  }
  if (word.hasPoint && state.form?.isRead) {
    state.change("coordinates with a point are written in the format");
  }
}

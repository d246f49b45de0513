/** Reads a word's codes byte by byte, without a text for any of them. */

const SMALL_A = 97, SMALL_Z = 122, TO_CAPITAL = 32;
const STAR = 42, PLUS = 43, MINUS = 45, POINT = 46, ZERO = 48, D = 68, G = 71, I = 73, J = 74, N = 78, X = 88, Y = 89;
const MOST_DIGITS = 15;

/** The word that was read last: codes by value, 0 where there is none; of places also where their numbers stand. */
export const word = {
  end: 0,
  hasNumber: false,
  hasSmall: false,
  has54: false,
  /** Whether the offsets of an arc got their signs. */
  isSigned: false,
  mode: 0,
  selection: 0,
  code: 0,
  /** Whether the codes stand in the order in which they are written. */
  isOrdered: true,
  hasPlaces: false,
  hasPoint: false,
  places: new Uint8Array(4),
  starts: new Int32Array(4),
  ends: new Int32Array(4),
  /** Sign, digits, how many they are, and how many of them stand behind a point; -1 where there is none. */
  negative: new Uint8Array(4),
  digits: new Float64Array(4),
  counts: new Int32Array(4),
  fractions: new Int32Array(4),
  /** The values in steps of the format that is written. */
  values: new Float64Array(4),
};


/** Where reading stands, and the digits that were read last, as a number. */
let at = 0;
let digits = 0;

/**
 * Reads digits.
  * @param {Uint8Array} bytes
 * @returns {number} how many; 0 where there are more than 15
 */
function readDigits(bytes) {
  const first = at;
  digits = 0;
  for (let digit = (bytes[at] ?? 0) - ZERO; digit >= 0 && digit <= 9; digit = (bytes[at] ?? 0) - ZERO) {
    digits = 10 * digits + digit;
    at += 1;
  }
  return at - first <= MOST_DIGITS ? at - first : 0;
}

/** @param {Uint8Array} bytes @param {number} axis */
function readPlace(bytes, axis) {
  if (word.places[axis] !== 0) {
    return false;
  }
  word.hasPlaces = true;
  word.places[axis] = 1;
  word.starts[axis] = at;
  word.negative[axis] = bytes[at] === MINUS ? 1 : 0;
  at += bytes[at] === MINUS || bytes[at] === PLUS ? 1 : 0;
  const first = at;
  let value = 0;
  let fraction = -1;
  for (;; at++) {
    const digit = (bytes[at] ?? 0) - ZERO;
    if (digit >= 0 && digit <= 9) {
      value = 10 * value + digit;
    } else if (bytes[at] === POINT && fraction < 0) {
      fraction = at + 1;
      word.hasPoint = true;
    } else {
      break;
    }
  }
  const count = at - first - (fraction < 0 ? 0 : 1);
  word.digits[axis] = value;
  word.counts[axis] = count;
  word.fractions[axis] = fraction < 0 ? -1 : at - fraction;
  word.ends[axis] = at;
  return count >= 1 && count <= MOST_DIGITS;
}

/** @param {Uint8Array} bytes */
function readGeneral(bytes) {
  if (readDigits(bytes) === 0) {
    return false;
  }
  if (digits === 54) {
    word.has54 = true;
    return true;
  }
  const isMode = digits >= 1 && digits <= 3 && word.mode === 0;
  word.mode = digits;
  return isMode;
}

/** @param {Uint8Array} bytes */
function readD(bytes) {
  if (readDigits(bytes) === 0) {
    return false;
  }
  if (digits > 9) {
    const isFirst = word.selection === 0 && !word.hasPlaces;
    word.selection = digits;
    return isFirst;
  }
  const isOperation = digits >= 1 && digits <= 3 && word.code === 0;
  word.code = digits;
  return isOperation;
}

/**
 * Reads the word that begins at a place; false where it holds more than is known here.
 * @param {Uint8Array} bytes
 * @param {number} start
 */
export function read(bytes, start) {
  word.hasNumber = word.has54 = word.hasPlaces = word.hasPoint = word.hasSmall = word.isSigned = false;
  word.mode = word.selection = word.code = 0;
  word.isOrdered = true;
  word.places[0] = word.places[1] = word.places[2] = word.places[3] = 0;
  at = start;
  let last = -1;
  for (;;) {
    let letter = bytes[at++] ?? 0;
    if (letter >= SMALL_A && letter <= SMALL_Z) {
      letter -= TO_CAPITAL;
      word.hasSmall = true;
    }
    let rank = 0;
    let isRead = true;
    if (letter === STAR) {
      word.end = at;
      return true;
    } else if (letter === X || letter === Y) {
      rank = letter - X + 1;
      isRead = readPlace(bytes, letter - X);
    } else if (letter === D) {
      isRead = readD(bytes);
      rank = word.code === 0 ? -1 : 5;
    } else if (letter === I || letter === J) {
      rank = letter - I + 3;
      isRead = readPlace(bytes, letter - I + 2);
    } else if (letter === G) {
      isRead = readGeneral(bytes);
    } else if (letter === N && at === start + 1) {
      isRead = readDigits(bytes) > 0;
      word.hasNumber = true;
      rank = -1;
    } else {
      return false;
    }
    if (!isRead) {
      return false;
    }
    word.isOrdered &&= rank > last || rank === -1;
    last = rank;
  }
}

// What stands on the lines of an Excellon drill file: which of it moves no hole, and why other parts are refused.

const STEPS = "a pattern that is repeated: have each hole written (no step and repeat, no repeat codes)";
const MIRRORS = "axes that are swapped or mirrored: have the file written as it lies";
const ARC = "an arc: have it routed in straight lines";
const COMPENSATION = "cutter compensation: have routs written along their centres";
const INCREMENTAL = "incremental coordinates: choose absolute ones";
const TEXT = "a text of holes: have each hole written";
const UNKNOWN = "no line that is known: choose Excellon format 2 or XNC, or leave the line out where it moves no hole";

const NEUTRAL_WORDS = new RegExp("^(?:AFS|ATC|BLKD|DETECT|DN|EXDA|FSB|HBCK|ICI,OFF|NCSL|OM48|OSTOP|OTCLMP|PCKPARAM|PF|PPR"
  + "|PVS|R,(?:C|CP|CR|D|H|T)|/|SBK|SG|TCST|UP|VER,1|FMAT,[12]|M4[57](?:,.*)?)(?:,ON|,OFF|,[\\d.,+-]+)?$");
const NEUTRAL_CODES = new Set(["G40", "G90", "M6", "M9", "M95"]);
const REFUSED_WORDS = new Map(Object.entries({
  ICI: INCREMENTAL,
  VER: "axes that are swapped or mirrored: choose VER,1",
  CP: COMPENSATION,
  CCW: COMPENSATION,
  DETECT: "a setting that is not known: leave it out where it moves no hole",
}));
const REFUSED_CODES = new Map(Object.entries({
  G2: ARC, G3: ARC, G91: INCREMENTAL, G41: COMPENSATION, G42: COMPENSATION,
  M1: STEPS, M2: STEPS, M8: STEPS, M25: STEPS, M14: "a rout that does not go through: have it routed through",
  M70: MIRRORS, M80: MIRRORS, M90: MIRRORS, M97: TEXT, M98: TEXT,
}));
const REFUSED_LETTERS = new Map(Object.entries({
  R: "a repeat: have each hole written (no repeat codes)", P: STEPS, A: ARC, I: ARC,
}));

/**
 * Whether a line is a setting that moves no hole.
 * @param {string} code
 */
export function isNeutralWord(code) {
  return NEUTRAL_WORDS.test(code);
}

/**
 * Whether a code alone on its line moves no hole.
 * @param {string} letter
 * @param {number} number
 */
export function isNeutralCode(letter, number) {
  return NEUTRAL_CODES.has(letter + number);
}

/**
 * Why a line that begins with these capitals is refused.
 * @param {string} name
 */
export function whyNotWord(name) {
  return REFUSED_WORDS.get(name) ?? UNKNOWN;
}

/**
 * Why a code with what stands on its line is refused.
 * @param {string} letter
 * @param {number} number
 */
export function whyNotCode(letter, number) {
  return REFUSED_CODES.get(letter + number) ?? UNKNOWN;
}

/** Why a letter is refused where a coordinate or a code should stand; undefined where that is not known. */
/** @param {string} letter */
export function whyNotLetter(letter) {
  return REFUSED_LETTERS.get(letter);
}

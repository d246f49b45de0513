/** Extended commands of old files, and what is written of them. */

import { Failure, Unsaid } from "../report.js";
import { decimal, equal, isZero, modulo, rational, subtract } from "../exact.js";
import { ANEW, NEAREST, TURNS } from "./advice.js";
import { CONTROLS, commandsIn, isWordIn, packed } from "./cut.js";
import { defineAperture, defineMacro } from "./definitions.js";
import { Aperture } from "./dictionary.js";
import { formOf } from "./form.js";
import { missingUnit } from "./front.js";
import { rewriteWord } from "./words.js";

const KEPT = ["TF", "TA", "TO", "TD", "IN", "LN"];
const READ = ["AB", "LM", "LP", "LS", "SR"];
/** @type {Record<string, string>} */
const REFUSED = {
  IF: "a file that is to be read in its place: plot all in one file",
  IJ: "a justified image: plot it without justification",
  IP: "a negative image: plot it positive",
  IR: "an image that is turned: plot it as it lies",
  KO: "a knockout: have it drawn as a region in clear (%LPC*%)",
  AS: "axes that are swapped: plot without",
  MI: "a mirrored image: plot it as it lies",
  OF: "an image that is moved: plot without offset",
  IO: "an image that is moved: plot without offset",
  SF: "an image that is scaled: plot at scale 1",
  LS: `apertures that are scaled: plot at scale 1, ${NEAREST}`,
  IC: "a code other than ASCII: plot in ASCII",
};
const HEADS = [...KEPT, ...READ, "AD", "AM", "FS", "LR", "MO", "PF", ...Object.keys(REFUSED)];
/** What an image command says where it changes nothing, for A and B alike. */
/** @type {Record<string, bigint>} */
const NEUTRAL = { MI: 0n, OF: 0n, IO: 0n, SF: 1n };
const ONE = rational(1n);
/** @type {import("./placing.js").Mirror[]} */
const MIRRORS = ["N", "X", "Y", "XY"];

/** @typedef {import("./state.js").State} State */
/** @typedef {import("./words.js").Piece} Piece */

/**
 * @param {import("./state.js").State} state
 * @param {string} raw  what stands from one % to the next
 * @returns {{pieces: import("./words.js").Piece[], isEnd: boolean}}
 */
export function rewriteExtended(state, raw) {
  const { commands, lacksEnd } = commandsIn(raw);
  if (lacksEnd) {
    state.change("a missing * before a % is written");
  }
  if (commands.length > 1) {
    state.change("several commands between two % are split, each with its own");
  }
  if (commands.length === 0) {
    state.change("%% without a command is left out");
  }
  /** @type {Piece[]} */
  const pieces = [];
  let isEnd = false;
  for (const command of commands) {
    if (isWordIn(command)) {
      state.change("a word between two % is written outside of them");
      const word = rewriteWord(state, `${command}*`);
      pieces.push(...word.pieces);
      isEnd ||= word.isEnd;
    } else {
      pieces.push(...rewriteCommand(state, command));
    }
  }
  const staysSo = pieces.length === 1 && commands.length === 1 && pieces[0] === `%${commands[0]}*%` && !lacksEnd;
  return { pieces: staysSo ? [raw] : pieces, isEnd };
}

/** @param {State} state @param {string} command @returns {Piece[]} */
function rewriteCommand(state, command) {
  const text = packed(command);
  const head = text.slice(0, 2).toUpperCase();
  if (!HEADS.includes(head)) {
    throw new Unsaid(`%${text.slice(0, 20)}*% is no command that is known: ${ANEW}`);
  }
  if (KEPT.includes(head)) {
    return [`%${attribute(state, command)}*%`];
  }
  if (head === "AM") {
    return keptSo(command, defineMacro(state, command));
  }
  if (head === "AD") {
    return keptSo(command, defineAperture(state, text));
  }
  const capitals = text.toUpperCase();
  if (capitals !== text) {
    state.change(`small letters in %${text}*% are written as capitals`);
  }
  return setting(state, capitals === text ? command : capitals, capitals, head);
}

/**
 * A definition that stays but for skipped bytes is written as it stands.
 * @param {string} command
 * @param {Piece[]} pieces
 */
function keptSo(command, pieces) {
  return pieces.map((piece) => (typeof piece === "string" && piece === `%${packed(command)}*%` ? `%${command}*%` : piece));
}

/** @param {State} state @param {string} command */
function attribute(state, command) {
  const clean = command.replace(CONTROLS, "");
  const written = clean.slice(0, 2).toUpperCase() + clean.slice(2);
  if (written !== command) {
    state.change(`control characters or small letters in %${written.slice(0, 2)}..*% are left out or written as capitals`);
  }
  return written;
}

/** @param {State} state @param {string} command @param {string} text @param {string} head @returns {string[]} */
function setting(state, command, text, head) {
  if (isLeftOut(text, head)) {
    state.change(`%${text}*% is left out: it changes no image`);
    return [];
  }
  switch (head) {
    case "FS":
      return [format(state, command, text)];
    case "MO":
      return [unit(state, command, text)];
    case "LR":
      return [turn(state, command, text)];
    case "LS":
      return [scale(state, command, text)];
    case "LM":
      return [mirror(state, command, text)];
    case "AB":
      return [block(state, command, text)];
    case "SR":
      return [...(text.length > 2 ? missingUnit(state) : []), `%${command}*%`];
    default:
      if (REFUSED[head] !== undefined && !isRead(text)) {
        throw new Unsaid(`%${text}*% is ${REFUSED[head]}`);
      }
      return [`%${command}*%`];
  }
}

/** @param {string} text @returns {boolean} whether camplot reads an image command as it stands: it changes nothing */
function isRead(text) {
  return /^(IPPOS|ASAXBY|IR0(\.0*)?|(MI|OF)(A0(\.0*)?)?(B0(\.0*)?)?|SF(A1(\.0*)?)?(B1(\.0*)?)?)$/.test(text);
}

/**
 * @param {string} text
 * @param {string} head
 * @returns {boolean} whether a command changes no image, by value, and has no form that camplot reads
 */
function isLeftOut(text, head) {
  if (head === "PF" || text === "ICAS") {
    return true;
  }
  if (head === "IR") {
    const angle = decimal(text.slice(2));
    return angle !== null && !isRead(text) && isZero(modulo(angle, 360n));
  }
  const neutral = NEUTRAL[head];
  if (neutral === undefined || isRead(text)) {
    return false;
  }
  const wanted = rational(neutral);
  const values = text.slice(2).match(/[AB][^AB]*/g) ?? [];
  return values.join("") === text.slice(2) && values.every((value) => {
    const number = decimal(value.slice(1));
    return number !== null && equal(number, wanted);
  });
}

/** @param {State} state @param {string} command @param {string} text */
function format(state, command, text) {
  const form = formOf(text, state.givenForm);
  if (state.givenForm !== null && !state.givenForm.equals(form)) {
    throw new Failure(`${state.givenForm.options}: the file has %${text}*% on line ${state.line}`);
  }
  if (state.form !== null && !state.form.equals(form)) {
    throw new Unsaid(`%${text}*% is another format than before: cut the file in two there, since it is two in one`);
  }
  state.tellForm(form);
  if (text === form.target && form.isRead) {
    return `%${command}*%`;
  }
  state.change(form.isRead ? `%${text}*% is written as %${form.target}*%: it means the same`
    : `%${text}*% is written as %${form.target}*%, and each coordinate in that form`);
  return `%${form.target}*%`;
}

/** @param {State} state @param {string} command @param {string} text */
function unit(state, command, text) {
  if (text !== "MOMM" && text !== "MOIN") {
    throw new Unsaid(`%${text}*% is no unit: write MM or IN`);
  }
  state.tellUnit(text === "MOMM" ? "mm" : "inch");
  return `%${command}*%`;
}

/** @param {State} state @param {string} command @param {string} text */
function mirror(state, command, text) {
  const mirror = MIRRORS.find((known) => text === `LM${known}`);
  if (mirror === undefined) {
    throw new Unsaid(`%${text}*% is no mirror: write N, X, Y or XY`);
  }
  state.mirror = state.writtenMirror = mirror;
  state.refresh();
  return `%${command}*%`;
}

/**
 * A turn; of one beyond quarters they are written, and the rest goes with each aperture under it.
 * @param {State} state
 * @param {string} command
 * @param {string} text
 */
function turn(state, command, text) {
  const angle = decimal(text.slice(2) || "0");
  if (angle === null) {
    throw new Unsaid(`%${text}*% is no rotation: write its degrees in digits`);
  }
  const whole = modulo(angle, 360n);
  const left = modulo(whole, 90n);
  if (!isZero(left) && !state.options.nearest) {
    throw new Unsaid(`%${text}*%, a rotation that is no multiple of 90 degrees: ${TURNS}`);
  }
  const quarter = subtract(whole, left).n / 90n;
  state.quarters = state.writtenQuarters = Number(quarter);
  state.setFlashes(left, state.scale);
  if (isZero(left)) {
    return `%${command}*%`;
  }
  state.change(`%${text}*% is written as %LR${90n * quarter}*%, and what it turns beyond that with each aperture`);
  return `%LR${90n * quarter}*%`;
}

/** @param {State} state @param {string} command @param {string} text */
function scale(state, command, text) {
  const factor = decimal(text.slice(2) || "1");
  if (factor === null || factor.n <= 0n) {
    throw new Unsaid(`%${text}*% is no scale: write 1`);
  }
  const isOne = equal(factor, ONE);
  if (!isOne && !state.options.nearest) {
    throw new Unsaid(`%${text}*% is ${REFUSED.LS}`);
  }
  state.setFlashes(state.turnLeft, factor);
  if (isOne) {
    return `%${command}*%`;
  }
  state.change(`%${text}*% is written as %LS1*%, and each aperture under it scaled`);
  return "%LS1*%";
}

/**
 * A block's begin or end. A number that was defined before gets a number of its own.
 * @param {State} state
 * @param {string} command
 * @param {string} text
 */
function block(state, command, text) {
  const { dictionary } = state;
  const found = /^ABD(\d+)$/.exec(text);
  if (found === null) {
    return `%${command}*%`;
  }
  const [, digits = ""] = found;
  const number = Number(digits);
  const old = dictionary.of(number);
  const aperture = new Aperture({ number, template: "AB", sizes: [], text: digits, line: state.line });
  aperture.key = `block on line ${state.line}`;
  dictionary.apertures.set(number, aperture);
  state.refresh();
  if (old === null) {
    return `%${command}*%`;
  }
  aperture.number = dictionary.freeNumber();
  state.change(`aperture ${number} is defined again, another way: it is ${aperture.number} from here on`);
  return `%ABD${aperture.number}*%`;
}


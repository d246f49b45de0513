// What is read of the browser's store, or heard of another window, as a value of its type. Another page may have written it, or
// anything else: what is none of it is refused, or left out where a board can do without it.

import { FINISH_NAMES, MASK_NAMES } from "../materials/index.js";
import { UNITS } from "../board/index.js";

/** @param {unknown} value @returns {Record<string, unknown>} */
const partsOf = (value) => /** @type {Record<string, unknown>} */ (typeof value === "object" && value !== null ? value : {});

/** @param {unknown} value @returns {value is string} */
const isText = (value) => typeof value === "string";
/** @param {unknown} value @returns {value is number} */
const isNumber = (value) => typeof value === "number" && Number.isFinite(value);
/** @param {unknown} value */
const isTruth = (value) => typeof value === "boolean";
/** @param {unknown} value @returns {value is Uint8Array} */
const isBytes = (value) => value instanceof Uint8Array;
/** @param {unknown} value */
const isKind = (value) => value === "gerber" || value === "drill";
/** @typedef {(value: unknown) => boolean} Check */
// (null counts as what is missing, as some pages wrote it)
/** @type {(is: Check) => Check} */
const maybe = (is) => (value) => value === undefined || value === null || is(value);
/** @type {(is: Check) => Check} */
const orNull = (is) => (value) => value === null || is(value);
/** @type {(is: Check) => Check} */
const listOf = (is) => (value) => Array.isArray(value) && value.every(is);
/** @type {(names: readonly string[]) => Check} */
const oneOf = (names) => (value) => isText(value) && names.includes(value);

// Whether a value has the parts of a type, each as its check says.
/** @param {unknown} value @param {Record<string, Check>} checks */
function fits(value, checks) {
  const parts = partsOf(value);
  return typeof value === "object" && value !== null && Object.entries(checks).every(([name, is]) => is(parts[name]));
}

/** @template T @param {Page.Checks<T>} checks @returns {(value: unknown) => value is T} */
const shape = (checks) => /** @returns {value is T} */ (value) => fits(value, checks);

// (what earlier pages did not write of a look has a default)
const LOOK = { label: maybe(isText), colour: maybe(isText), height: maybe(isNumber), opacity: maybe(isNumber), isShown: maybe(isTruth),
  file: maybe(isText), origin: maybe(isText), shows: maybe(isText), toldBy: maybe(isText) };
const FOLLOWING = { label: isText, colour: isText, height: isNumber, shows: maybe(isText), value: maybe(isText) };
/** @type {(value: unknown) => value is Machine.Following} */
const isFollowing = shape(FOLLOWING);
/** @type {(value: unknown) => value is Omit<Machine.Layer, "items" | "entries">} */
const isLayer = shape({ ...LOOK, name: isText, kind: isKind, by: maybe(isFollowing), base: maybe(isFollowing) });
/** @type {(value: unknown) => value is Partial<Machine.Look>} */
const isPartOfLook = shape(LOOK);
/** @type {(value: unknown) => value is Machine.Told} */
const isTold = shape({ line: isText, reply: isText, path: maybe(isText), file: maybe(isText), layer: () => true,
  isSave: maybe(isTruth) });

// (a line does without the look of its layer)
/** @param {Machine.Told} told @returns {Machine.Told} */
function usable(told) {
  const { layer, ...rest } = told;
  return layer === undefined || isPartOfLook(layer) ? told : rest;
}

/** @type {(value: unknown) => value is Board.Box} */
const isBox = shape({ left: isNumber, low: isNumber, right: isNumber, high: isNumber });
/** @type {(value: unknown) => value is Machine.Seen} */
const isSeen = shape({ left: isNumber, top: isNumber, pitch: (value) => isNumber(value) && value > 0, quarters: maybe(isNumber),
  isMirrored: maybe(isTruth), fitted: maybe(isBox) });
/** @type {(value: unknown) => value is Machine.Made} */
const isMade = shape({ isShown: isTruth, mask: oneOf(MASK_NAMES), finish: oneOf(FINISH_NAMES) });
/** @type {(value: unknown) => value is Machine.Checks["accepted"][number]} */
const isAccepted = shape({ kind: isText, nets: listOf(isText), layer: isText, x: isNumber, y: isNumber, reason: maybe(isText),
  by: maybe(isText) });
/** @type {Check} */
const isLimit = (value) => Array.isArray(value) && isText(value[0]) && isNumber(value[1]);
/** @type {(value: unknown) => value is Machine.Checks} */
const isChecks = shape({ name: maybe(isText), limits: listOf(isLimit), accepted: listOf(isAccepted), by: maybe(isText) });
/** @type {(value: unknown) => value is NonNullable<Machine.Looks["job"]>} */
const isJob = shape({ name: isText, bytes: isBytes });
/** @type {(value: unknown) => value is Machine.OlderRegistry["boards"][number]} */
const isOlderBoard = shape({ key: isText, number: isNumber, title: orNull(isText) });
/** @type {(value: unknown) => value is Machine.OlderRegistry} */
const isRegistry = shape({ boards: listOf(isOlderBoard), shown: isText, count: (value) => isNumber(value) && value >= 0 && value < 1e4,
  isFirstGone: maybe(isTruth) });

/** @type {{ [K in keyof Required<Machine.Looks>]: Check }} */
const LOOKS = { look: isText, view: isSeen, face: orNull(isBytes), bytes: isNumber, grid: (value) => isNumber(value) && value >= 1,
  unit: oneOf(Object.keys(UNITS)), active: orNull(isText), polarity: isText, turn: isText, direction: isText, made: isMade,
  isOutlined: isTruth, layers: listOf(isLayer), registry: isRegistry, job: orNull(isJob), checks: isChecks };

// How a board looks: the parts of it that can be used.
/** @param {unknown} value @returns {Machine.Looks} */
export function looksFrom(value) {
  const parts = partsOf(value), given = Object.entries(LOOKS).filter(([name, is]) => is(parts[name]));
  return /** @type {Machine.Looks} */ (Object.fromEntries(given.map(([name]) => [name, parts[name]])));
}

/** @type {(value: unknown) => value is Machine.Recognised} */
const isRecognised = shape({ kind: isKind, wanted: maybe(isText), label: maybe(isText), colour: maybe(isText), height: maybe(isNumber),
  isShown: maybe(isTruth), fileName: maybe(isText), origin: maybe(isText), toldBy: maybe(isText) });
/** @type {(value: unknown) => value is Machine.Offer} */
const isOffer = shape({ isAble: isTruth, why: isText, asks: listOf(isText) });
/** @type {(value: unknown) => value is Machine.Waiting["refused"][number]} */
const isRefused = shape({ id: isNumber, file: isText, layer: isRecognised, reply: isText, opening: maybe(isNumber), isTried: isTruth,
  offer: orNull(isOffer), note: isText, isPending: maybe(isTruth), isAsked: (value) => isTruth(value) || isNumber(value) });
/** @type {(value: unknown) => value is Machine.Waiting["pictures"][number]} */
const isPicture = shape({ file: isText, label: isText, of: orNull(isText), window: isText, colour: isText, opacity: isNumber,
  isShown: isTruth });
const GIVEN = { id: maybe((value) => isText(value) || isNumber(value)), opening: maybe(isNumber), file: maybe(isText),
  files: maybe(listOf(isText)), isGiven: maybe(isTruth) };
// The gestures that wait for the page to be opened again, by their kinds (../machine/keeping.js).
/** @type {Record<string, Record<string, Check>>} */
const WAITING = {
  lines: { lines: listOf(isText), window: maybe(isText), isAllowed: maybe(isTruth) },
  load: { layer: isRecognised, given: maybe((value) => fits(value, { name: isText, path: isText })), refused: maybe(isNumber) },
  opened: {},
  picture: { label: isText, of: orNull(isText), window: orNull(isText), isShown: maybe(isTruth), opacity: maybe(isNumber),
    colour: maybe(isText), isInside: maybe(isTruth) },
};
/** @param {unknown} value @returns {value is Machine.Gesture} */
function isGesture(value) {
  const { kind } = partsOf(value), its = isText(kind) && Object.hasOwn(WAITING, kind) ? WAITING[kind] : undefined;
  return its !== undefined && fits(value, { ...GIVEN, ...its });
}

// What was still to be done: all of it that can be; null where it is none of that.
/** @param {unknown} value @returns {Machine.Waiting | null} */
export function waitingFrom(value) {
  const { gestures, refused, pictures, next } = partsOf(value);
  if (!Array.isArray(gestures) || !Array.isArray(refused) || !Array.isArray(pictures)) return null;
  const all = { gestures: gestures.filter(isGesture), refused: refused.filter(isRefused), pictures: pictures.filter(isPicture) };
  return isNumber(next) ? { ...all, next } : all;
}

// The lines of a record: as earlier pages wrote it, it is a line alone, with its file under the path.
/** @param {unknown} value @returns {Machine.Told[]} */
export function entriesFrom(value) {
  const { entries = [value] } = partsOf(value);
  if (!Array.isArray(entries) || !entries.every(isTold)) throw new Error("a line of it is none");
  if (entries === partsOf(value).entries) return entries.map(usable);
  return entries.map(({ line, reply, path }) => path ? { line, reply, path, file: path } : { line, reply });
}

/** @param {unknown} value */
export function bytesFrom(value) {
  if (!isBytes(value)) throw new Error("a file of it is none");
  return value;
}

/** @param {unknown} value */
const textOrNull = (value) => isText(value) ? value : null;

// What the list has of a board; of a record that is none the board was found.
/** @param {unknown} value @returns {Page.BoardRecord} */
export function recordFrom(value) {
  const { number, title, shown, hasContents, window, holder, isFound, from } = partsOf(value);
  const isNone = !Number.isSafeInteger(number) || !isNumber(shown);
  return { number: isNone ? 0 : Number(number), title: textOrNull(title), shown: isNumber(shown) ? shown : 0,
    hasContents: hasContents === true, window: textOrNull(window), holder: textOrNull(holder),
    ...isNone || isFound === true ? { isFound: true } : {}, ...isText(from) ? { from } : {} };
}

// The part of a key, which is a list, at a place.
/** @param {unknown} key @param {number} at */
export const partOfKey = (key, at) => String(Array.isArray(key) ? key[at] : key);

// What a window says; null where it is none of that.
/** @param {unknown} value @returns {Page.Between | null} */
export function betweenFrom(value) {
  const { kind, key, from, to, why } = partsOf(value);
  if (kind === "news") return { kind };
  if (!isText(key)) return null;
  if (kind === "ask") return isText(from) ? { kind, key, from } : null;
  if (!isText(to)) return null;
  if (kind === "handing") return { kind, key, to };
  return kind === "refused" && isText(why) ? { kind, key, to, why } : null;
}

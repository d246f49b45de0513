// One test record of an IPC-D-356 or 356A file, by its columns.

/** Thrown where a line cannot be taken as it is; the text says why. */
export class Unread extends Error {}

/**
 * A point that the electrical test touches, or a hole without a net. Lengths are in nm.
 * @typedef {object} Point
 * @property {number} line from 1
 * @property {"through" | "surface" | "blind" | "tooling"} kind by the record's code: 317, 327, 307, 367
 * @property {string | null} net null for N/C, a pad without a net
 * @property {string} part the part's reference, as R1; VIA for a via
 * @property {string} pin
 * @property {boolean} isMid whether it lies in the middle of its net
 * @property {number | null} hole its diameter
 * @property {boolean} isPlated
 * @property {number} access 0 for both sides, else the number of the layer from which it is reached
 * @property {[number, number] | null} span the first and the last layer of a blind or buried via, where the record has them
 * @property {number} x
 * @property {number} y
 * @property {number} width of the pad; 0 where the record has none
 * @property {number} height of the pad; of a round one, as the record has it, 0
 */

/** @type {Map<string, Point["kind"]>} */
const KINDS = new Map([["317", "through"], ["327", "surface"], ["307", "blind"], ["367", "tooling"]]);

/** Records that say nothing of points: conductors, what lies next to what, outlines, and how these go on. */
export const LEFT_OUT = ["378", "379", "389", "078", "079", "089"];

/** Records that go on with a point: the same pad on another side. Their fields that are blank are those of the record before. */
export const CONTINUED = new Map([["017", "317"], ["027", "327"]]);

/** The columns of a point's fields: its net; part, pin and M; hole; access; place. */
const FIELDS = [[3, 20], [20, 32], [32, 38], [38, 41], [41, 57]];

// Columns 42 to 57: a sign or a blank, and six columns of digits, which blanks may begin.
const PLACE = /^X([-+ ])(?=.{6}Y)( *\d+)Y([-+ ])(?=.{6})( *\d+)$/;
// What may stand behind the place: the pad's sides, its turn, the sides that solder mask covers, layers. It is tried on a few
// characters alone, in which blanks stand one by one, since it tries every way to share blanks out.
const MOST_REST = 60;
const REST = /^ *(?:X( *\d{1,4}))? *(?:Y( *\d{1,4}))? *(?:R( *\d{1,3}))? *(?:S([0-3]?))? *(?:L(\d{1,2})[-L]?(\d{1,2}))? *$/;

/** Names that say that a pad has no net. */
const NO_NET = /^n\/?c$/i;

/** @param {string} why @returns {never} */
function fail(why) {
  throw new Unread(why);
}

/** @param {string} digits */
function whole(digits) {
  return Number(digits.trim());
}

/** @param {string} sign @param {string} digits */
function signed(sign, digits) {
  return sign === "-" ? 0 - whole(digits) : whole(digits);
}

/** @param {string} field @param {Map<string, string>} aliases */
function nameOf(field, aliases) {
  const name = field.trim();
  if (name === "" || NO_NET.test(name)) return null;
  if (!/^NNAME/.test(name)) return name;
  return aliases.get(name) ?? fail(`${name} is an alias that no line P NNAME.. defines before`);
}

/** @param {string} record */
function pinOf(record) {
  const dash = record[26], pin = record.slice(27, 31).trim();
  if (dash !== "-" && dash !== " ") fail(`column 27 has ${dash} in place of - or a blank`);
  if (dash === " " && pin !== "") fail(`the pin ${pin} has no - before it, in column 27`);
  if (record[31] !== "M" && record[31] !== " ") fail(`column 32 has ${record[31]} in place of M or a blank`);
  return pin;
}

/**
 * Columns 33 to 38: D, four digits, P or U; or blanks.
 * @param {string} record
 * @param {Point["kind"]} kind
 * @param {number} unit nm for each count
 * @returns {Pick<Point, "hole" | "isPlated">}
 */
function holeOf(record, kind, unit) {
  const field = record.slice(32, 38);
  if (field.trim() === "") {
    return kind === "surface" ? { hole: null, isPlated: false } : fail("the hole of columns 33 to 38 is missing");
  }
  const [, digits, plating] = /^D( *\d{1,4})([PU])$/.exec(field) ?? [];
  if (digits === undefined) fail(`columns 33 to 38 have ${field} in place of a hole, as D0394P`);
  if (kind === "surface") fail("a surface point has a hole in columns 33 to 38");
  if (whole(digits) === 0) fail("the hole has no diameter");
  return { hole: whole(digits) * unit, isPlated: plating === "P" };
}

/** @param {string} record @param {Point["kind"]} kind */
function accessOf(record, kind) {
  const field = record.slice(38, 41);
  if (field.trim() === "" && kind === "tooling") return 0;
  if (!/^A\d\d$/.test(field)) fail(`columns 39 to 41 have ${field} in place of an access side, as A01`);
  const access = Number(field.slice(1));
  if (kind === "surface" && access === 0) fail("a surface point is reached from both sides (A00)");
  return access;
}

/** @param {string | undefined} first @param {string | undefined} last @returns {[number, number] | null} */
function spanOf(first, last) {
  if (first === undefined) return null;
  /** @type {[number, number]} */
  const span = [Number(first), Number(last)];
  if (span[0] < 1 || span[1] < span[0]) fail(`the layers L${first} to ${last} are no span`);
  return span;
}

/**
 * The record that a continuation stands for.
 * @param {string} line that begins with 017 or 027
 * @param {string | null} before the record that it goes on with
 * @returns {string | null} null where it has no place
 */
export function continued(line, before) {
  if (before === null) fail(`there is no record that ${line.slice(0, 3)} goes on with`);
  const own = line.padEnd(57);
  if (own.slice(41, 57).trim() === "") return null;
  const fields = FIELDS.map(([from, to]) => (own.slice(from, to).trim() === "" ? before : own).slice(from, to));
  return `${CONTINUED.get(line.slice(0, 3))}${fields.join("")}${own.slice(57)}`;
}

/**
 * The point of a record.
 * @param {string} line a line that begins with 3 and two digits
 * @param {number} number the line's number
 * @param {number} unit nm for each count
 * @param {Map<string, string>} aliases
 * @returns {Point}
 * @throws {Unread} where a field is not as the format has it
 */
export function pointOf(line, number, unit, aliases) {
  const kind = KINDS.get(line.slice(0, 3)) ?? fail(`there is no record ${line.slice(0, 3)}`);
  if (line.length < 57) fail(`the line has ${line.length} characters, and the place ends in column 57`);
  if (line.slice(17, 20).trim() !== "") fail(`columns 18 to 20 are not blank; a name has at most 14 characters`);
  const [, signX, digitsX, signY, digitsY] = PLACE.exec(line.slice(41, 57)) ?? [];
  if (signX === undefined || digitsX === undefined || signY === undefined || digitsY === undefined) {
    fail(`columns 42 to 57 have ${line.slice(41, 57)} in place of X and Y with a sign and six digits each`);
  }
  const tail = line.slice(57).replace(/ {2,}/g, " "), rest = tail.length > MOST_REST ? null : REST.exec(tail);
  if (!rest) fail(`${tail.trim().slice(0, MOST_REST)} is not a size, a rotation, a solder mask and layers, as X0787Y0787R270S0`);
  const [, width, height, turn, , first, last] = rest;
  if (turn !== undefined && whole(turn) > 360) fail(`the rotation ${turn} is more than 360 degrees`);
  return {
    line: number, kind, net: nameOf(line.slice(3, 17), aliases), part: line.slice(20, 26).trim(), pin: pinOf(line),
    isMid: line[31] === "M", ...holeOf(line, kind, unit), access: accessOf(line, kind), span: spanOf(first, last),
    x: signed(signX, digitsX) * unit, y: signed(signY, digitsY) * unit,
    width: whole(width ?? "0") * unit, height: whole(height ?? "0") * unit,
  };
}

// An Excellon drill file as XNC that camplot loads: coordinates with a point, slots as routs.
//
// A coordinate without a point, as X0145300, has its place only with three other things: the unit, how many digits stand
// before and behind the point, and which zeros are left out. Each is taken from the first of these that tells it: an
// option; the file; a report; the coordinates. The digits are assumed where nothing tells them, the unit never is.

import { hasByteOrderMark, latin1 } from "../../bytes/index.js";
import { Changes, Failure, Unsaid, toldChanges } from "../report.js";
import { Form } from "./form.js";
import { Hints, reportHints } from "./hints.js";
import { micrometres, sizeOf } from "./lengths.js";
import { hintsIn, linesOf } from "./lines.js";
import { Reader } from "./reader.js";
import { allowedDiameter } from "./tools.js";
import { xncBytes } from "./write.js";

/** @typedef {import("./lengths.js").Unit} Unit */

/**
 * What is known beside the file; all may be missing.
 * @typedef {object} DrillOptions
 * @property {"mm" | "inch" | null} [unit]
 * @property {import("./lengths.js").Digits | null} [digits]
 * @property {"leading" | "trailing" | null} [zeros] the zeros that are written
 * @property {{name: string, bytes: Uint8Array} | null} [report] the report that the CAD program wrote with the file
 * @property {{number: number, size: string, unit: string | null, shown: string}[]} [tools] diameters that the file lacks,
 *   in the file's unit where it has none of its own, and how each is called where it is refused
 */

/**
 * What came of a file: the bytes of the XNC file, or the refusals, in order of their lines.
 * @typedef {object} Converted
 * @property {Uint8Array | null} bytes null where anything was refused
 * @property {import("../report.js").Refusal[]} refusals
 * @property {import("../report.js").Change[]} changes
 * @property {string[]} account what there is to tell, line by line: where the form is from, the changes, the counts
 */

// The file without a byte order mark, the leader of a tape and what old systems put behind the end.
/** @param {Uint8Array} bytes @param {Changes} changes */
function cleaned(bytes, changes) {
  let start = 0, end = bytes.length;
  if (hasByteOrderMark(bytes)) {
    start = 3;
    changes.add("a byte order mark is left out", 1);
  }
  const front = start;
  while (start < end && bytes[start] === 0) start++;
  while (end > start && (bytes[end - 1] === 0 || bytes[end - 1] === 0x1a)) end--;
  if (start > front || end < bytes.length) changes.add("zero bytes or Ctrl-Z at the file's ends are left out", 1);
  return bytes.subarray(start, end);
}

/** @param {DrillOptions["report"]} report */
function hintsOf(report) {
  const hints = new Hints();
  if (!report) return hints;
  hints.join(reportHints(latin1(report.bytes), report.name));
  if (hints.isEmpty) throw new Failure(`${report.name}: no report of EAGLE's (.dri) or Allegro's (nc_param.txt)`);
  return hints;
}

/** @param {NonNullable<DrillOptions["tools"]>} tools @param {Unit} unit */
function givenTools(tools, unit) {
  const given = new Map(/** @type {[number, number][]} */ ([]));
  for (const tool of tools) {
    try {
      given.set(tool.number, allowedDiameter(sizeOf(tool.size, tool.unit ?? unit, unit), unit, "it"));
    } catch (fault) {
      if (!(fault instanceof Unsaid)) throw fault;
      throw new Failure(`${tool.shown}: ${fault.message}`);
    }
  }
  return given;
}

// What the text that is to be written does: read with points alone, and nothing given.
/** @param {Uint8Array} bytes @param {Unit} unit */
function readBack(bytes, unit) {
  const reader = new Reader(unit, null, null, new Map(), new Map());
  reader.read(linesOf(bytes));
  const [refusal] = reader.refusals;
  if (refusal) throw new Error(`the text that was made does not read: ${refusal.what}`);
  return reader.drilling;
}

/** @param {number[]} values @param {Unit} unit */
function rangeText(values, unit) {
  let least = Infinity, most = -Infinity;
  for (const value of values) {
    if (value < least) least = value;
    if (value > most) most = value;
  }
  return `${micrometres(least, unit)} to ${micrometres(most, unit)}`;
}

/** @param {import("./drilling.js").Drilling} read @param {Hints} hints */
function looksOf(read, hints) {
  const counts = new Map(/** @type {[number, number][]} */ ([]));
  for (const tool of read.itemTools) counts.set(tool, (counts.get(tool) ?? 0) + 1);
  return [...hints.tools].sort(([one], [other]) => one - other)
    .filter(([number, told]) => told.count !== null && told.count !== (counts.get(number) ?? 0))
    .map(([number, told]) => {
      return `LOOK: T${number} makes ${counts.get(number) ?? 0} holes here, and ${told.count} by ${told.source}`;
    });
}

/**
 * @param {Reader} reader
 * @param {import("../report.js").Change[]} changes
 * @param {import("./drilling.js").Drilling} again
 * @param {Form} form
 * @param {Hints} hints
 */
function accountOf(reader, changes, again, form, hints) {
  const { drilling: read, machine: { slots: byG85 } } = reader;
  const slots = byG85 ? `${read.routs} (${byG85} by G85, ${read.routs - byG85} by M15)` : `${read.routs}`;
  const spans = () => `centres: X ${rangeText(read.xs, read.unit)}, Y ${rangeText(read.ys, read.unit)} mm`;
  return [
    ...form.told(),
    ...toldChanges(changes),
    `tools: ${read.diameters.size} read, ${again.diameters.size} written`,
    `hits: ${read.hits} read, ${again.hits} written`,
    `slots: ${slots} read, ${again.routs} written`,
    ...(read.xs.length ? [spans()] : []),
    ...looksOf(read, hints),
  ];
}

/** @param {import("../report.js").Refusal[]} refusals @returns {Converted} */
function refused(refusals) {
  return { bytes: null, refusals, changes: [], account: [] };
}

/**
 * Writes an Excellon drill file as XNC. Every value is written exactly, in the file's unit; what cannot be is refused with
 * its line, and then nothing is written. What is to be written is read again and compared.
 * @param {Uint8Array} bytes
 * @param {DrillOptions} options
 * @returns {Converted}
 * @throws {Failure} where an option cannot be used
 */
export function convertDrill(bytes, options = {}) {
  const changes = new Changes();
  /** @type {import("../report.js").Refusal[]} */
  const refusals = [];
  const lines = linesOf(cleaned(bytes, changes));
  const hints = hintsOf(options.report);
  hints.join(hintsIn(lines, refusals));
  for (const source of hints.incremental) {
    refusals.push({ place: source, what: "coordinates are incremental: choose absolute ones" });
  }
  /** @type {Form | null} */
  let form = null;
  try {
    form = new Form(options, hints, lines);
    refusals.push(...form.refusals());
  } catch (fault) {
    if (!(fault instanceof Unsaid)) throw fault;
    refusals.push({ place: "form", what: fault.message });
  }
  if (form === null || refusals.length) return refused(refusals);
  const unit = form.unit.value, given = givenTools(options.tools ?? [], unit);
  const reader = new Reader(unit, form.digits?.value ?? null, form.zeros?.value ?? null, given, hints.tools);
  reader.read(lines);
  const missing = [...given.keys()].sort((one, other) => one - other).find((number) => !reader.drilling.diameters.has(number));
  if (missing !== undefined) throw new Failure(`--tool ${missing}: the file has no tool of this number`);
  if (reader.refusals.length) return refused(reader.refusals);
  const made = xncBytes(reader.header, reader.drilling);
  const again = readBack(made, unit);
  if (!again.isSame(reader.drilling)) throw new Error("the text that was made does something else");
  const all = [...changes.list, ...reader.changes.list];
  return { bytes: made, refusals: [], changes: all, account: accountOf(reader, all, again, form, hints) };
}

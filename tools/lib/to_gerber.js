// tools/to_gerber: old Gerber files in today's form.

import { convertGerber, toldChanges } from "../../web/convert/index.js";
import { Call, perform } from "./command.js";
import { chosenDigits, convertFiles } from "./converting.js";
import { choicesOf, option } from "./options.js";
import { called } from "./places.js";

const TOOL = called("to_gerber");
export const COMMAND = {
  tool: TOOL,
  about: `Writes an old Gerber file in the form that camplot loads.

Without --nearest it rounds nothing. It changes these: a format with omitted trailing zeros, points, other digits in X
than in Y or line numbers, as FSLAN2.., becomes today's format, with each coordinate in it; several commands between two
% get their own; several codes in one word are split and ordered; line numbers, G54, G55, M01, %ICAS*%, %PF..*% and a
byte order mark are left out; M00 becomes M02; small letters become capitals; control characters in comments and
attributes are left out; a rectangle given by its corner (22) is given by its centre (21); arcs of one quadrant (G74) are
written under G75, and G75 is added if a signed I or J shows it; an arc of radius 0 becomes a draw of no length; an
aperture or a macro that is defined again gets a number or a name of its own; a macro that is named before it is defined
is moved before; an aperture that nothing uses is left out if camplot refuses it; EAGLE's octagon becomes an outline. It
prints each change with its lines. Everything that camplot reads stays as it is, byte for byte.

With --nearest it also writes angles other than quarters, polygons, moires, thermals, rectangular holes, scaled apertures
and draws with other pens than circles and rectangles: each corner and each centre at the nearest nm. It prints with each
change what was rounded. A pen loses its hole, and a rectangle with one parameter becomes a square.

What cannot be written is refused with its line and the option, or the setting of the CAD program, that helps, and then
nothing is written: negative or turned images, incremental coordinates, arcs with a square pen. The tool loads what it
made before it writes it, by the program or by the module of the page if one is built, and writes nothing that camplot
refuses.

  ${TOOL} top.art                           top.art.gbr
  ${TOOL} top.gbr --nearest                 pads at odd angles too
  ${TOOL} top.gbr -o out/top.gbr --unit inch
  ${TOOL} top.pho --repeat                  X..Y..* after D03 or D02 repeats it, as old plotters took it
  ${TOOL} top.gbx --format 2.4 --zeros leading   a file without %FS..*%, whose X01 is 1 inch
  ${TOOL} *.art -o out                      several files, into a folder that is there
  ${TOOL} - < top.art > top.gbr             from standard input to standard output; changes go to standard error

Exit status 0: written; 1: a file was refused, and nothing was written of it; 2: the words of the call or a file cannot be
used; 3: standard output cannot be written.`,
  operand: { name: "FILE", isMany: true, help: "Gerber files, or - for standard input" },
  options: [
    option("--out", ": a file, a folder, or - for standard output; by default FILE.gbr"),
    ...choicesOf("gerber"),
    option("--replace"),
    option("--json"),
    option("--camplot"),
  ],
};

/** @param {Calls.Asked<typeof COMMAND>} options */
function run(options) {
  const { nearest, repeat, unit, arcs, zeros } = options, format = chosenDigits(options.format);
  if (zeros !== null && !format) throw new Call(`--zeros ${zeros}: it needs --format, as --format 2.4`);
  const said = { nearest, repeat, ...unit && { unit }, ...arcs && { arcs }, ...format && { format }, ...zeros && { zeros } };
  /** @type {import("./converting.js").Converter["convert"]} */
  const convert = (bytes) => {
    const made = convertGerber(bytes, said);
    const { changes, refusals, operations } = made;
    if (refusals.length) return { bytes: null, refusals, changed: [], told: [] };
    const changed = toldChanges(changes), { count, flashes, draws } = operations;
    const told = [...(changed.length ? changed : ["nothing was changed"]),
      `operations: ${count} read and written, ${flashes} flashes and ${draws} draws`];
    return { bytes: made.bytes, refusals, values: { changes, operations }, changed, told };
  };
  return convertFiles(TOOL, options, { kind: "gerber", outOf: (/** @type {string} */ file) => `${file}.gbr`, convert });
}

/**
 * Runs the command with the words of a call.
 * @param {string[]} words
 */
export function main(words) {
  return perform(COMMAND, run, words);
}

// tools/to_xnc: Excellon drill files as XNC.

import { convertDrill, toolOf } from "../../web/convert/index.js";
import { Call, perform } from "./command.js";
import { chosenDigits, convertFiles } from "./converting.js";
import { readBytes } from "./files.js";
import { choicesOf, option } from "./options.js";
import { called } from "./places.js";

const TOOL = called("to_xnc");
export const COMMAND = {
  tool: TOOL,
  about: `Writes an Excellon drill file as XNC that \`camplot\` loads: coordinates with a point, slots as routs.

The place of a coordinate without a point, as X0145300, depends on three other things: the unit, how many digits stand
before and after the point, and which zeros are left out. Each is taken from the first of these that gives it: an
option; the file, by METRIC, INCH, M71, M72, LZ, TZ, a form such as 000.000, or the comments that KiCad, Altium and
Allegro write; a report (--report). If nothing gives the digits, they are assumed to be 2:4 in inches and 3:3 in mm; the
zeros are worked out if the coordinates leave one choice. The unit is never assumed. The tool prints what it took from
where, and each thing that it left out or changed. Compare the size that it prints with the board's.

Every value is written exactly. What cannot be is refused with its line, and then nothing is written: arcs, repeats,
patterns, incremental coordinates, mirrors, tools without a diameter. A file of M30 alone becomes a file without holes.
The tool loads what it made before it writes it, by the program or by the module of the page if one is built, and writes
nothing that camplot refuses.

  ${TOOL} holes.drl                                  holes.xnc, by what the file declares
  ${TOOL} holes.drd --report holes.dri               the form by EAGLE's report, or Allegro's nc_param.txt
  ${TOOL} holes.tap -o out/holes.xnc --unit inch --format 2.4 --zeros trailing
  ${TOOL} holes.txt --unit mm --tool 1=0.8 --tool 2=40mil
  ${TOOL} *.drl -o out                               several files, into a folder that is there
  ${TOOL} - < holes.drl > holes.xnc                  from standard input to standard output

Exit status 0: written; 1: a file was refused, and nothing was written of it; 2: the words of the call or a file cannot be
used; 3: standard output cannot be written.`,
  operand: { name: "FILE", isMany: true, help: "Excellon drill files, or - for standard input" },
  options: [
    option("--out", ": a file, a folder, or - for standard output; by default FILE with the ending .xnc"),
    ...choicesOf("drill"),
    option("--replace"),
    option("--json"),
    option("--camplot"),
  ],
};

/** @param {string} word */
function chosenTool(word) {
  const tool = toolOf(word, `--tool ${word}`);
  if (!tool) throw new Call(`--tool ${word}: it needs a number and a diameter, as 1=0.8mm`);
  return tool;
}

/** @param {string} file */
function outOf(file) {
  return `${file.replace(/(?<=[^/])\.[^./]+$/, "")}.xnc`;
}

/** @param {Calls.Asked<typeof COMMAND>} options */
function run(options) {
  const { unit, zeros, report } = options, digits = chosenDigits(options.format), tools = options.tool.map(chosenTool);
  const told = report === null ? null : { name: report, bytes: readBytes(report) };
  /** @type {import("./converting.js").Converter["convert"]} */
  const convert = (bytes) => {
    const done = convertDrill(bytes, { unit, zeros, digits, tools, report: told });
    if (!done.bytes) return { bytes: null, refusals: done.refusals, changed: [], told: [] };
    return { bytes: done.bytes, refusals: [], changed: done.account, told: done.account };
  };
  return convertFiles(TOOL, options, { kind: "drill", outOf, convert });
}

/**
 * Runs the command with the words of a call.
 * @param {string[]} words
 */
export function main(words) {
  return perform(COMMAND, run, words);
}

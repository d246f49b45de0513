// tools/nets: which copper is one piece, and what differs from the netlist.

import { existsSync, statSync } from "node:fs";
import { dirname, join } from "node:path";
import { latin1 } from "../../web/bytes/index.js";
import { RULES, counted, limitWords, limitsOf as limitsOfPitch, mm, placeWords } from "../../web/nets/index.js";
import { SIDE, scriptLines, windowLine } from "../../web/board/index.js";
import { Call, DONE, Failure, REFUSED, perform, say } from "./command.js";
import { STANDARD, checkTarget, readBytes } from "./files.js";
import { inputs } from "./inputs.js";
import { NetsBoard } from "./nets_board.js";
import { layersOf, rolesOf } from "./nets_roles.js";
import { limitsOf, rulesSummary } from "./nets_rules.js";
import { neededBy, uncheckedWords } from "./nets_sides.js";
import { Truth } from "./nets_truth.js";
import { Answer, differences } from "./nets_answer.js";
import { drawFindings } from "./nets_pictures.js";
import { neededModule } from "./module.js";
import { Accepted, NAME } from "./nets_accepted.js";
import { progress } from "./nets_progress.js";
import { option } from "./options.js";
import { printedInto } from "./output.js";
import { askedPitch } from "./pixels.js";
import { called } from "./places.js";
import { checkProgram } from "./station.js";

/** The exit status where there is nothing to compare with. */
const NOTHING = 2;
/** By default, in nm. */
const FINE = 10_000;

const TOOL = called("nets");
export const COMMAND = {
  tool: TOOL,
  about: `Finds which copper of a board is one piece, and compares it with the nets that it should have.

  ${TOOL} FOLDER                    the layers among the files of a folder, compared with what the Gerber files say
                                       themselves (%TO.N,..*%), or with nothing: then it lists the nets by their size
  ${TOOL} FOLDER --ipc board.d356   compared with a netlist in the form IPC-D-356 or 356A
  ${TOOL} FOLDER --edits FILE       the board after the lines of FILE, a script's edits: did they join or cut anything?
  ${TOOL} top.gbr holes.drl ..      these files, whatever their names are

A piece is black pixels of one copper layer that touch by edges. A net is pieces that plated holes join. It prints how many
nets there are, then each difference with its place in mm:
  open         the points of one net lie in several parts: where the parts end, and how far apart
  short        points of several nets lie in one piece: where the way between them is narrowest
  no copper    a point lies on none
  no point     copper has no point: lettering, say. That is listed, and is no fault

The pictures are camplot's, whose every pixel is proved; the nets are not proved. Each answer is that of a pitch: it holds
where tracks and holes are at least as wide as a pixel's diagonal and gaps wider than a pixel.

Exit status 0: no difference, or none that is not accepted; 1: differences, broken rules, or places of --gap and --neck;
2: there is nothing to compare with, or copper or holes that a netlist or a file counts on are missing, not recognised or
refused (--partial compares the rest); 3: standard output cannot be written.`,
  operand: { name: "FOLDER|FILE", isMany: true },
  options: [option("--ipc"), option("--edits", ": before they are plotted; - is standard input"),
    option("--shift", "; by default it is found"), option("--rules", ": a line has a name and its limit, as ring 0.13 or ring 5mil"),
    option("--rule", `: ${[...RULES.keys()].join(", ")}`), option("--copper"), option("--may-touch"), option("--accept"),
    option("--accepted", ` (${NAME} in the folder of the board)`), option("--role"), option("--partial"), option("--dpi"),
    option("--pitch", " (10um)"), option("--twice"), option("--gap"), option("--neck"), option("--pictures"),
    option("--out", ": a file"), option("--replace"), option("--json"), option("--camplot")],
};

/** @typedef {ReturnType<typeof checkedOptions>} Options */
/** @typedef {import("../../web/board/index.js").BoardFile} BoardFile */

/** @param {string} text @returns {[string, string]} */
function pairOf(text) {
  const [one, other, ...more] = text.split(",").map((name) => name.trim());
  if (!one || !other || more.length) throw new Call(`--may-touch ${text}: it needs two nets, as GND,AGND`);
  return [one, other];
}

// Where a board's accepted findings are, if no file is named: in its folder.
/** @param {string[]} paths */
function acceptedPath([first = "."]) {
  return join(statSync(first).isDirectory() ? first : dirname(first), NAME);
}

// The options, with the pitch, the limits of the rules and the nets that may touch as they are used.
/** @param {Calls.Asked<typeof COMMAND>} options */
function checkedOptions(options) {
  const pitch = askedPitch(options, FINE);
  if (options.shift !== null && options.ipc === null) throw new Call("--shift is for the netlist of --ipc");
  if (options.ipc !== null && !existsSync(options.ipc)) throw new Failure(`${options.ipc} does not exist`);
  const mayTouch = options.mayTouch.map(pairOf), limits = limitsOf(options.rules, options.rule);
  if (options.accept === "") throw new Call("--accept needs a reason");
  if (options.pictures !== null && existsSync(options.pictures)) {
    throw new Failure(`${options.pictures} exists already: --pictures names a new folder`);
  }
  return { ...options, pitch, mayTouch, limits };
}

/** @param {NetsBoard} board @param {BoardFile[]} others @param {string[]} notes */
function tellLayers(board, others, notes) {
  for (const { name } of others.filter((other) => other.name !== NAME)) say(`left out, since it is not recognised as a layer: ${name}`);
  for (const note of notes) say(note);
  for (const { layer, number } of board.stack.copper) say(`copper ${number}: ${layer.name}: ${layer.file.name}`);
  for (const { layer, why } of board.stack.holes) {
    const unplated = board.placesWithoutPlating(layer).length;
    say(`plated holes: ${layer.file.name}: through ${why}${
      unplated ? `; ${counted(unplated, "hole")} of tools without plating left out, which cut copper` : ""}`);
  }
  for (const { file } of board.withoutPlating) say(`holes without plating: ${file.name}: they cut copper`);
  if (board.outline) {
    const { closed, open } = board.outlines;
    say(`outline: ${board.outline.file.name}: ${closed.length ? "its closed lines cut copper" : "none of its lines is closed"}${
      open ? `; ${counted(open, "open line")} left out` : ""}`);
  }
  for (const { layerFunction, file } of board.covers) say(`${layerFunction.label}: ${file.name}${/mask/.test(layerFunction.name) ? ": open where it is black" : ""}`);
  for (const { layer, why } of board.stack.leftOut) say(`left out: ${layer.file.name}: ${why}`);
  if (!board.stack.holes.length) say("no layer of plated holes: nothing joins the copper layers");
  for (const line of board.missing) say(`missing: ${line}: not checked`);
  if (board.missing.length) say("parts that are told as open may be joined by what is missing");
}

/** @param {import("../../web/board/index.js").PlotWindow} window @param {number} asked */
function tellWindow(window, asked) {
  const { pitch, width, height } = window;
  say(`the window: ${width} x ${height} pixels of ${pitch} nm${
    pitch === asked ? "" : `, since pixels of ${asked} nm would be more than ${SIDE} a side`}`);
}

// The answer at the pitch, and with --twice those of another window and of another pitch.
/** @param {NetsBoard} board @param {Truth} truth @param {Options} options @returns {[Answer, ...Answer[]]} */
function answersOf(board, truth, options) {
  const window = board.window(options.pitch), half = Math.floor(window.pitch / 2), others = [];
  if (options.twice) {
    others.push({ window: board.window(options.pitch, true), what: "with the window moved by half a pixel" });
    if (half > 0) others.push({ window: board.window(half), what: "at half the pitch" });
  }
  return [new Answer(board, truth, window, "", options),
    ...others.map((other) => new Answer(board, truth, other.window, other.what, options))];
}

/** @param {[Answer, ...Answer[]]} answers */
function tellTwice([first, ...others]) {
  for (const other of others) {
    const told = differences(first, other);
    say(`${other.what} (${windowLine(other.window)}): ${told.length ? "what differs:" : "nothing differs"}`);
    for (const line of told) say(`  ${line}`);
  }
}

/** @param {Answer} answer @param {string[]} labels */
function tellSizes({ nets, grid }, labels) {
  const { areas, holes } = nets.tallies(), size = (grid.pitch / 1e6) ** 2;
  /** @type {Map<number, {x: number, y: number}>} */
  const firsts = new Map();
  nets.visit(() => true, (layer, row, start, end, net) => {
    if (!firsts.has(net)) firsts.set(net, grid.placeOf((start + end - 1) >> 1, row));
  }, 0, nets.copper.length - 1);
  const rows = [...firsts].map(([net, first]) => ({ net, first, count: holes[net] ?? 0,
    area: areas.reduce((sum, ofLayer) => sum + (ofLayer[net] ?? 0), 0) * size,
    on: labels.filter((_, layer) => (areas[layer]?.[net] ?? 0) > 0).join(", ") }));
  for (const { area, on, first, count } of rows.sort((one, other) => other.area - one.area || one.net - other.net)) {
    say(`${area.toFixed(4).padStart(12)} mm²  ${counted(count, "hole").padStart(9)}  at ${placeWords(first)} on ${on}`);
  }
}

/** @param {number} part */
const percent = (part) => `${(100 * part).toFixed(1)} %`;

/** @param {Answer} answer */
function tellShares(answer) {
  answer.shares.forEach(({ all, rows }, layer) => {
    say(`copper's share of ${answer.labels[layer]}: ${percent(all)}; by squares of 10 mm, from the upper left:`);
    for (const row of rows) say(`  ${row.map((part) => percent(part).padStart(8)).join("")}`);
  });
}

/** @param {Truth} truth @param {[Answer, ...Answer[]]} answers @param {Options} options @param {Accepted} accepted */
function tell(truth, answers, options, accepted) {
  const [answer] = answers;
  tellWindow(answer.window, options.pitch);
  say(truth.words(answer));
  say(`${counted(answer.nets.count, "net")} in ${counted(answer.nets.pieces, "piece")} of copper; ${limitWords(answer.window.pitch)}`);
  if (truth.isNone) tellSizes(answer, answer.labels);
  for (const lines of answer.lines()) say(lines.join("\n"));
  if (!truth.isNone) say(answer.summary());
  if (options.limits.size) say(rulesSummary(answer.breaches, options.limits, answer.unchecked));
  for (const rule of answer.unchecked) say(uncheckedWords(rule));
  if (options.copper) tellShares(answer);
  accepted.tell();
  tellTwice(answers);
}

/** @param {NetsBoard} board @param {Truth} truth @param {[Answer, ...Answer[]]} answers @param {Accepted} accepted */
function jsonOf(board, truth, answers, accepted) {
  const [answer, ...others] = answers, { track, gap } = limitsOfPitch(answer.window.pitch);
  return JSON.stringify({
    copper: board.stack.copper.map(({ layer, number }) => ({ number, name: layer.name, file: layer.file.name })),
    missing: board.stack.missing, notChecked: board.missing, holes: board.stack.holes.map(({ layer, why }) => ({ name: layer.name, file: layer.file.name, through: why })),
    window: answer.window, narrowestTrack: mm(track), narrowestGap: mm(gap), truth: truth.words(answer),
    nets: answer.nets.count, pieces: answer.nets.pieces, ...answer.findings(), accepted: accepted.kept, gone: accepted.gone,
    twice: others.map((other) => ({ window: other.window, what: other.what, differs: differences(answer, other) })),
  }, null, 1);
}

// Whether something is asked that needs no nets to compare with.
/** @param {Options} options */
function isChecked({ gap, neck, limits, copper }) {
  return gap !== null || neck !== null || limits.size > 0 || copper;
}

// The file of --out is none of those that are read, also of a folder.
/** @param {Options} options @param {BoardFile[]} files @param {string} accepted */
function checkOut({ out, replace, ipc, edits, rules }, files, accepted) {
  if (out === null || out === STANDARD) return;
  checkTarget(out, replace, [...files.flatMap(({ path }) => path ?? []), accepted, ...[ipc, edits, rules].flatMap((path) => path ?? [])]);
}

/** @param {Calls.Asked<typeof COMMAND>} asked */
function run(asked) {
  const options = checkedOptions(asked);
  const { files, areNamed, notes } = inputs(options.operands), acceptedIn = options.accepted ?? acceptedPath(options.operands);
  checkOut(options, files, acceptedIn);
  const { layers, others } = layersOf(files, areNamed, rolesOf(options.role));
  checkProgram(options.camplot);
  neededModule();
  const accepted = new Accepted(acceptedIn);
  const netlist = options.ipc === null ? null : Truth.netlist(options.ipc);
  const edits = options.edits === null ? [] : scriptLines(latin1(readBytes(options.edits)));
  const board = new NetsBoard(layers, edits, options.camplot, neededBy(options.limits), options.edits ?? undefined);
  try {
    const truth = new Truth(board, netlist);
    truth.checkWhole(others, options.partial);
    truth.align(options.shift);
    // What the layers are first: the rest may take a while.
    if (!options.json) tellLayers(board, others, notes);
    const answers = answersOf(board, truth, options);
    progress("");
    for (const answer of answers) answer.accept(accepted);
    if (options.accept !== null) {
      accepted.add(answers[0].kept(), options.accept);
      for (const answer of answers) answer.accept(accepted);
    }
    if (options.json) say(jsonOf(board, truth, answers, accepted));
    else tell(truth, answers, options, accepted);
    if (options.pictures !== null) drawFindings(answers[0], options.pictures);
    if (answers.some((answer) => answer.hasFault)) return REFUSED;
    return truth.isNone && !isChecked(options) ? NOTHING : DONE;
  } finally {
    progress("");
    board.close();
  }
}

/**
 * Runs the command with the words of a call.
 * @param {string[]} words
 */
export function main(words) {
  return perform(COMMAND, (options) => printedInto(options, () => run(options)), words);
}

// tools/compare: what differs between two revisions of a board.

import { windowLine } from "../../web/board/index.js";
import { Owners, besides, changeWords, labelOfPair, outcomeWords, placeLine, summaryWords, windowOfPlace } from "../../web/compare/index.js";
import { counted } from "../../web/nets/index.js";
import { Call, DONE, FAILED, REFUSED, complain, perform, say } from "./command.js";
import { boardOf, pairsOf } from "./compare_boards.js";
import { ComparedPair } from "./compare_layers.js";
import { PICTURE, changesAt, reportOf } from "./compare_report.js";
import { STANDARD, checkTarget, writeFile } from "./files.js";
import { option } from "./options.js";
import { printedInto, sayJson } from "./output.js";
import { askedPitch } from "./pixels.js";
import { called } from "./places.js";
import { checkProgram } from "./station.js";

/** Stands between the files of the two boards. */
const BETWEEN = ":";
/** So many places of a layer are printed, and so many changes of a place. */
const MOST_PLACES = 40, MOST_CHANGES = 6;

const TOOL = called("compare");
export const COMMAND = {
  tool: TOOL,
  about: `Compares two revisions of a board, layer by layer: what is the same, and where the rest differs.

  ${TOOL} FOLDER FOLDER             the layers among the files of two folders
  ${TOOL} old.zip new.zip           those in two ZIP files; or a folder and a ZIP file, or two files
  ${TOOL} a/*.gbr : b/*.gbr         several files of each board, with a colon between them
  ${TOOL} A B --html what.html      and a page with pictures of both sides at each place
  ${TOOL} A B --json                for a program, as one that checks each commit of a board

Layers are paired by what they show, as an attribute, a job file (.gbrjob) or their names tell it. A pair is
  the same              its items are, whatever numbers their apertures have, and in whichever order where that changes nothing
  the same picture      items differ, and no pixel does; so a pad that moved by 1 nm is found, and has its place
  different             at so many places, each with its middle in mm, the pixels that differ, and what became of its items
Dates, other attributes, comments and the names of files change nothing of what is made: they are told, and a pair that
differs in them alone is the same.

The exit status is 0 if both boards are the same; 1 if a layer differs or only one board has it; 2 if the call or a file
cannot be used; 3 if standard output cannot be written.`,
  operand: { name: "A B", isMany: true, help: "each a folder, a ZIP file or a file; or files of A, the word : and files of B" },
  options: [option("--dpi", " (1000)"), option("--pitch"), option("--html"), option("--out", ": a file"), option("--replace"),
    option("--json"), option("--camplot")],
};

/** @typedef {Calls.Asked<typeof COMMAND>} Options */
/** @typedef {import("./compare_boards.js").ComparedBoard} ComparedBoard */
/** @typedef {import("../../web/compare/index.js").Compared} Compared */
/** @typedef {{onlyFirst: Layer[], onlySecond: Layer[]}} Rest the layers that only one board has */
/** @typedef {import("../../web/board/index.js").Layer} Layer */

/** @param {string[]} words */
function sidesOf(words) {
  const at = words.indexOf(BETWEEN), sides = at < 0 ? words.map((word) => [word]) : [words.slice(0, at), words.slice(at + 1)];
  const [first, second] = sides;
  if (!first?.length || !second?.length || sides.length !== 2) {
    throw new Call(at < 0 ? `${counted(words.length, "word")}: it needs two boards, A and B; files of each with a colon between them`
      : "a colon stands between files of A and files of B");
  }
  return { first, second };
}

// The files that are written are none of those that are read.
/** @param {Options} options @param {ComparedBoard[]} boards */
function checkTargets({ out, html, replace }, boards) {
  const sources = boards.flatMap((board) => board.sources);
  if (html !== null && html === out) throw new Call("--html and --out name the same file");
  for (const path of [out, html]) if (path !== null && path !== STANDARD) checkTarget(path, replace, sources);
  if (html === STANDARD) throw new Call("--html needs a file");
  return sources;
}

/** @param {Compared} compared @param {Owners} owners */
function tellPlaces(compared, owners) {
  const { places } = compared;
  places.slice(0, MOST_PLACES).forEach((place, at) => {
    say(`  ${at + 1}. ${placeLine(place)}`);
    for (const change of changesAt(compared, place).slice(0, MOST_CHANGES)) {
      const of = owners.words(change);
      say(`     ${changeWords(change, compared)}${of && ` (${of})`}`);
    }
    if (place.owners.length > MOST_CHANGES) say(`     and ${counted(place.owners.length - MOST_CHANGES, "more item")}`);
  });
  if (places.length > MOST_PLACES) say(`  and ${counted(places.length - MOST_PLACES, "more place")}; --json lists all`);
}

/** @param {ComparedPair} pair */
function tellPair(pair) {
  say(`${labelOfPair(pair)}: ${pair.layers[0].file.name}: ${outcomeWords(pair)}`);
  for (const line of besides(pair)) say(`  ${line}`);
  if (pair.compared) tellPlaces(pair.compared, new Owners(pair));
}

/** @param {ComparedPair[]} pairs @param {Rest} rest */
const summaryOf = (pairs, rest) => summaryWords(pairs.map(({ outcome }) => outcome), rest);

/** @param {ComparedBoard[]} boards @param {ComparedPair[]} pairs @param {Rest} rest */
function tell(boards, pairs, rest) {
  boards.forEach(({ title, layers, leftOut, notes }, at) => {
    say(`${"AB"[at]}: ${title}: ${counted(layers.length, "layer")}${leftOut.length ? `; left out, since they are no layers: ${leftOut.join(", ")}` : ""}`);
    for (const note of notes) say(`   ${note}`);
  });
  for (const pair of pairs) tellPair(pair);
  for (const { layerFunction, file } of rest.onlyFirst) say(`${layerFunction.label}: ${file.name}: only in A`);
  for (const { layerFunction, file } of rest.onlySecond) say(`${layerFunction.label}: ${file.name}: only in B`);
  say(summaryOf(pairs, rest));
}

/** @param {number} nm */
const toMm = (nm) => nm / 1e6;
const NOTHING_SAID = { dates: [], attributes: [], comments: [], isRead: true };

/** @param {Compared} compared @param {Owners} owners */
function placesJson(compared, owners) {
  return compared.places.map((place) => {
    const { left, low, right, high } = place.box;
    return { x: toMm((left + right) / 2), y: toMm((low + high) / 2), width: toMm(right - left), height: toMm(high - low),
      window: windowLine(windowOfPlace(place.box, PICTURE.width, PICTURE.height)), onlyInA: place.onlyFirst, onlyInB: place.onlySecond,
      changes: changesAt(compared, place).map((change) => {
        const { what, from, to, parts, dx, dy } = change;
        return { what, a: from, b: to, parts, ...what === "moved" ? { dx: toMm(dx), dy: toMm(dy) } : {}, words: changeWords(change, compared),
          of: owners.words(change) };
      }) };
  });
}

/** @param {ComparedBoard[]} boards @param {ComparedPair[]} pairs @param {Rest} rest */
function jsonOf(boards, pairs, rest) {
  /** @param {Layer} layer */
  const layerJson = ({ layerFunction, file }) => ({ shows: layerFunction.label, file: file.name });
  return { boards: boards.map(({ title, leftOut, notes, faults }) => ({ title, leftOut, notes, faults })),
    isSame: isAllSame(pairs, rest),
    pairs: pairs.map((pair) => ({ shows: labelOfPair(pair), name: pair.layers[0].layerFunction.name, a: pair.layers[0].file.name,
      b: pair.layers[1].file.name, pairedBy: pair.by, outcome: pair.outcome, isSame: pair.isSame, isSameFile: pair.isSameFile,
      refused: pair.refused, pitch: pair.window?.pitch ?? null, places: pair.compared ? placesJson(pair.compared, new Owners(pair)) : [], ...pair.compared?.said ?? NOTHING_SAID })),
    onlyInA: rest.onlyFirst.map(layerJson), onlyInB: rest.onlySecond.map(layerJson) };
}

/** @param {ComparedPair[]} pairs @param {Rest} rest */
function isAllSame(pairs, { onlyFirst, onlySecond }) {
  return pairs.every((pair) => pair.isSame) && !onlyFirst.length && !onlySecond.length;
}

/** @param {Options} options */
async function run(options) {
  const pitch = askedPitch(options), sides = sidesOf(options.operands);
  const first = await boardOf(sides.first), second = await boardOf(sides.second);
  const boards = [first, second], sources = checkTargets(options, boards);
  checkProgram(options.camplot);
  const { pairs: found, ...rest } = pairsOf(first, second);
  const pairs = found.map((pair) => new ComparedPair(pair, options.camplot));
  for (const pair of pairs) pair.compare(pitch);
  for (const fault of boards.flatMap(({ faults }) => faults)) complain(`${TOOL}: ${fault}`);
  if (options.json) sayJson(jsonOf(boards, pairs, rest));
  else tell(boards, pairs, rest);
  if (options.html !== null) {
    /** @param {ComparedPair} pair */
    const lines = (pair) => ({ title: labelOfPair(pair), outcome: outcomeWords(pair), besides: besides(pair), owners: new Owners(pair) });
    writeFile(options.html, reportOf(boards, pairs, rest, summaryOf(pairs, rest), lines), options.replace, sources);
    if (!options.json) say(`the page: ${options.html}`);
  }
  const isUnread = boards.some(({ faults }) => faults.length) || pairs.some(({ refused }) => refused.length);
  return isUnread ? FAILED : isAllSame(pairs, rest) ? DONE : REFUSED;
}

/**
 * Runs the command with the words of a call.
 * @param {string[]} words
 */
export function main(words) {
  return perform(COMMAND, (options) => printedInto(options, () => run(options)), words);
}

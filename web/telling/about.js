// About a board: its sides, its layers, its holes, who wrote its files and when, and what its job file says; as a table, and as
// text to copy.
//
//     const about = aboutBoard(layers, { unit: "mm", job: { name: "board.gbrjob", bytes } });
//     about.rows                     [["sides", "30.00 by 20.00 mm, along the middle of the outline's lines"], ..]
//     textOf(about)                  the same, a line each

import { byFunction } from "../board/index.js";
import { boxText, counted, lengthText, sidesText, sizeText } from "./measures.js";
import { counts, datesWords, drillComments, makerOf } from "./makers.js";
import { holesOf } from "./holes.js";
import { missingFiles, readJob } from "./job.js";
import { outlineBox } from "./outline_box.js";
import { sidesOf } from "./paths.js";

/** @typedef {import("./layers.js").ToldLayer} ToldLayer */
/** @typedef {import("./measures.js").Unit} Unit */
/** @typedef {import("./holes.js").HoleRow} HoleRow */
/** @typedef {import("./job.js").Job} Job */
/** @typedef {[name: string, value: string]} Row */

/** @typedef {{rows: Row[], holes: HoleRow[]}} About */

/** @param {readonly ToldLayer[]} layers @param {Unit} unit @returns {Row[]} */
function sideRows(layers, unit) {
  const { outlines, box } = outlineBox(layers);
  if (!outlines.length) return [["sides", "not known: no layer is the outline"]];
  if (!box) return [["sides", "not known: the outline has no line"]];
  const { width, height } = sidesOf(box);
  return [["sides", `${sidesText(width, height, unit)}, along the middle of the outline's lines`],
    ["outline", `${outlines.map(({ label }) => label).join(", ")}, ${boxText(box, unit)} ${unit}`]];
}

// The number of a copper layer from the top: as its file has it, else by what it shows.
/** @param {ToldLayer} layer @param {number} last @returns {number} */
function copperNumber({ functionFields, shows }, last) {
  const [what, number = ""] = functionFields, [, inner] = /^in(\d+)$/.exec(shows) ?? [];
  if (what === "Copper" && /^L\d+$/.test(number)) return Number(number.slice(1));
  return shows === "top" ? 1 : inner ? Number(inner) + 1 : last;
}

// How many copper layers files name: copper by its number, holes by the last layer that they reach.
/** @param {readonly ToldLayer[]} layers */
function namedCopper(layers) {
  const numbers = layers.map(({ functionFields: [what, first, second] }) => {
    if (what === "Copper") return Number(/^L(\d+)$/.exec(first ?? "")?.[1] ?? 0);
    return /^(?:Plated|NonPlated|MixedPlating)$/.test(what ?? "") && /^\d+$/.test(second ?? "") ? Number(second) : 0;
  });
  return Math.max(0, ...numbers);
}

// What job files of KiCad call the functions that files have by other names.
const FUNCTIONS = new Map([["SolderMask", "Soldermask"], ["SolderPaste", "Paste"]]);

// A file that is missing, with what it shows.
/** @param {Job["files"][number]} file @returns {[string, string]} */
function missingRow({ path, shows }) {
  const value = shows?.replace(/^\w+/, (word) => FUNCTIONS.get(word) ?? word);
  return ["missing file", value ? `${path} (${byFunction(value).label})` : path];
}

// No board has so many; a file that names more is not believed.
const MOST_COPPER = 200;

/** @param {readonly ToldLayer[]} layers @param {Job | null} job @returns {Row[]} */
function copperRows(layers, job) {
  const named = Math.min(MOST_COPPER, Math.max(namedCopper(layers), job?.copper ?? 0)), copper = layers.filter(({ group }) => group === "copper");
  const numbered = copper.map((layer) => ({ label: layer.label, number: copperNumber(layer, named || MOST_COPPER) }));
  numbered.sort((one, other) => one.number - other.number);
  const missing = Array.from({ length: named }, (_, at) => at + 1).filter((number) => !numbered.some((layer) => layer.number === number));
  /** @type {Row[]} */
  const rows = [["copper layers", copper.length ? `${copper.length}: ${numbered.map(({ label }) => label).join(", ")}` : "none"]];
  if (missing.length) rows.push(["missing copper layers", `${missing.map((number) => `L${number}`).join(", ")} of ${named}`]);
  return rows;
}

/** @param {readonly ToldLayer[]} layers @returns {Row[]} */
function itemRows(layers) {
  const count = layers.reduce((sum, { items }) => sum + items.length, 0);
  return [["layers", String(layers.length)], ["items", count.toLocaleString("en")]];
}

/** @param {boolean | null} isPlated */
const platedText = (isPlated) => isPlated === null ? "" : isPlated ? "plated" : "not plated";

/** @param {HoleRow} row @param {Unit} unit */
const sizeOf = ({ diameter, isPlated }, unit) => [`${sizeText(diameter, unit)} ${unit}`, platedText(isPlated)].filter((part) => part).join(", ");

/** @param {HoleRow[]} holes @param {Unit} unit @returns {Row[]} */
function holeRows(holes, unit) {
  const drilled = holes.filter((row) => row.holes > 0), sum = (/** @type {"holes" | "slots"} */ name) => holes.reduce((all, row) => all + row[name], 0);
  /** @type {Row[]} */
  const rows = [["holes", sum("holes").toLocaleString("en")]];
  if (sum("slots")) rows.push(["slots", sum("slots").toLocaleString("en")]);
  const [smallest] = drilled, largest = drilled.at(-1);
  if (smallest && largest) rows.push(["smallest hole", sizeOf(smallest, unit)], ["largest hole", sizeOf(largest, unit)]);
  for (const row of holes) {
    const count = [row.holes ? counted(row.holes, "hole") : "", row.slots ? counted(row.slots, "slot") : ""].filter((part) => part).join(" and ");
    rows.push([sizeOf(row, unit), row.functions.length ? `${count}: ${row.functions.join("; ")}` : count]);
  }
  return rows;
}

/** @param {readonly ToldLayer[]} layers @returns {Row[]} */
function makerRows(layers) {
  const makers = layers.map(makerOf), programs = counts(makers.map(({ program }) => program)), date = datesWords(makers.map((maker) => maker.date));
  const projects = counts(layers.map(({ attributes }) => {
    const [name, , revision] = attributes.get(".ProjectId") ?? [];
    return name ? revision ? `${name}, revision ${revision}` : name : null;
  }));
  /** @type {Row[]} */
  const rows = projects.map(({ text }) => ["project", text]);
  const isOne = programs.length === 1 && programs[0]?.count === layers.length;
  for (const { text, count } of programs) rows.push(["written by", isOne ? text : `${text} (${counted(count, "file")})`]);
  if (date) rows.push(["written", date]);
  return [...rows, ...drillComments(layers).map((comment) => /** @type {Row} */ (["drill file says", comment]))];
}

/** @param {Job} job @param {readonly string[]} names @param {Unit} unit @returns {Row[]} */
function jobRows(job, names, unit) {
  const { sides, thickness, finish, materials, colours, copper, program, date, project } = job, missing = missingFiles(job, names);
  /** @type {[string, string | null | false][]} */
  const rows = [["project", project], ["sides", sides && sidesText(sides[0], sides[1], unit)],
    ["copper layers", copper === null ? null : String(copper)], ["material", materials.join(", ")], ["finish", finish],
    ["thickness", thickness && `${lengthText(thickness, unit)} ${unit}`],
    ...colours.map(({ what, colour }) => /** @type {[string, string]} */ ([`colour of ${what}`, colour])), ["written by", program], ["written", date],
    ...missing.map(missingRow)];
  return rows.flatMap(([name, value]) => value ? [/** @type {Row} */ ([`job file: ${name}`, value])] : []);
}

/**
 * What is known of a board.
 * @param {readonly ToldLayer[]} layers
 * @param {{unit: Unit, job?: {name: string, bytes: Uint8Array} | null, fileNames?: readonly string[]}} options the job file that came
 *   along, and the names of all files that were opened, those of no layer too
 * @returns {About}
 */
export function aboutBoard(layers, { unit, job = null, fileNames = [] }) {
  const read = job ? readJob(job.bytes) : null, holes = holesOf(layers), names = [...fileNames, ...layers.map(({ fileName }) => fileName)];
  const rows = [...sideRows(layers, unit), ...copperRows(layers, read?.job ?? null), ...itemRows(layers), ...holeRows(holes, unit), ...makerRows(layers)];
  if (read?.job) rows.push(...jobRows(read.job, names, unit));
  else if (job && read) rows.push(["job file", `${job.name} is not read: ${read.why}`]);
  return { rows, holes };
}

/**
 * The same as text to copy, a line for each row.
 * @param {About} about
 * @returns {string}
 */
export function textOf({ rows }) {
  const width = Math.max(0, ...rows.map(([name]) => name.length));
  return rows.map(([name, value]) => `${`${name}:`.padEnd(width + 2)}${value}\n`).join("");
}

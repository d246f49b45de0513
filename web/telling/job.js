// A Gerber job file, `.gbrjob`: what it says of the board and which files it names (Ucamco, "Gerber Job Format Specification").
// It is JSON from anywhere, so each value is looked at before it is used, and what is of another kind is not there.

import { exact } from "./measures.js";
import { hasByteOrderMark, utf8 } from "../bytes/index.js";
import { dateWords, programWords } from "./makers.js";

/**
 * What a job file says; null, or an empty list, where it does not say it.
 * @typedef {object} Job
 * @property {string | null} program
 * @property {string | null} date
 * @property {string | null} project
 * @property {[width: import("./measures.js").Length, height: import("./measures.js").Length] | null} sides of the board
 * @property {number | null} copper how many copper layers
 * @property {import("./measures.js").Length | null} thickness
 * @property {string | null} finish
 * @property {string[]} materials of the dielectrics, each once
 * @property {{what: string, colour: string}[]} colours of solder mask and legend
 * @property {{path: string, shows: string | null}[]} files with the value of the function of each
 */

/** @typedef {Record<string, unknown>} Value */

// A text of a file is shown up to so many letters.
const LONGEST = 200;

/** @param {unknown} value @returns {Value} */
const objectOf = (value) => typeof value === "object" && value !== null && !Array.isArray(value) ? /** @type {Value} */ (value) : {};

/** @param {unknown} value @returns {Value[]} */
const listOf = (value) => Array.isArray(value) ? value.map(objectOf) : [];

/** @param {unknown} value @returns {string | null} */
function textOf(value) {
  const text = typeof value === "string" ? value.trim() : typeof value === "number" && Number.isFinite(value) ? String(value) : "";
  return text ? text.slice(0, LONGEST) : null;
}

/** @param {unknown} value @returns {number | null} */
const numberOf = (value) => typeof value === "number" && Number.isFinite(value) && value >= 0 && value < 1e6 ? value : null;

// A length, which is in mm.
/** @param {unknown} value */
function lengthOf(value) {
  const mm = numberOf(value);
  return mm === null ? null : exact(Math.round(mm * 1e6));
}

/** @param {Value} specs @returns {Job["sides"]} */
function sidesOf(specs) {
  const { X, Y } = objectOf(specs.Size), width = lengthOf(X), height = lengthOf(Y);
  return width && height ? [width, height] : null;
}

/** @param {Value} specs */
function projectOf(specs) {
  const { Name, Revision } = objectOf(specs.ProjectId), name = textOf(Name), revision = textOf(Revision);
  return name && revision ? `${name}, revision ${revision}` : name;
}

/** @param {(string | null)[]} texts */
const once = (texts) => [...new Set(texts.flatMap((text) => text ?? []))];

/** @param {Value} job @returns {Job} */
function jobOf(job) {
  const header = objectOf(job.Header), specs = objectOf(job.GeneralSpecs), software = objectOf(header.GenerationSoftware);
  const stack = listOf(job.MaterialStackup), date = textOf(header.CreationDate);
  const colours = stack.flatMap(({ Type, Color }) => {
    const colour = textOf(Color), what = Type === "SolderMask" ? "solder mask" : Type === "Legend" ? "silkscreen" : null;
    return colour && what ? [{ what, colour }] : [];
  });
  return {
    program: programWords([textOf(software.Vendor), textOf(software.Application), textOf(software.Version)]), date: date && dateWords(date),
    project: projectOf(specs), sides: sidesOf(specs), copper: numberOf(specs.LayerNumber), thickness: lengthOf(specs.BoardThickness),
    finish: textOf(specs.Finish), materials: once(stack.filter(({ Type }) => Type === "Dielectric").map(({ Material }) => textOf(Material))),
    colours: colours.filter(({ what, colour }, at) => colours.findIndex((other) => other.what === what && other.colour === colour) === at),
    files: listOf(job.FilesAttributes).flatMap(({ Path, FileFunction }) => {
      const path = textOf(Path);
      return path ? [{ path, shows: textOf(FileFunction) }] : [];
    }),
  };
}

/**
 * What a job file says.
 * @param {Uint8Array} bytes
 * @returns {{job: Job | null, why: string | null}} or why it is none
 */
export function readJob(bytes) {
  try {
    const value = objectOf(JSON.parse(utf8(hasByteOrderMark(bytes) ? bytes.subarray(3) : bytes)));
    const isJob = ["Header", "GeneralSpecs", "FilesAttributes"].some((name) => Object.keys(value).includes(name));
    return isJob ? { job: jobOf(value), why: null } : { job: null, why: "it has no part of a job file" };
  } catch (fault) {
    return { job: null, why: `it is no JSON: ${fault instanceof Error ? fault.message : fault}` };
  }
}

/** @param {string} path */
const baseName = (path) => (path.split(/[\\/]/).pop() ?? "").toLowerCase();

/**
 * The files that a job file names and that are not there, by their names without folders.
 * @param {Job} job
 * @param {readonly string[]} names of the files that are there
 * @returns {Job["files"]}
 */
export function missingFiles(job, names) {
  const there = new Set(names.map(baseName));
  return job.files.filter(({ path }) => !there.has(baseName(path)));
}

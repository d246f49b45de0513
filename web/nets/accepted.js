// Findings that somebody accepted: one a line, as JSON, with a reason, and who it was if that is known. A finding is an accepted one
// by its kind, its nets and its place.

import { utf8 } from "../bytes/index.js";

/**
 * A finding as it is kept; lengths in mm.
 * @typedef {object} Kept
 * @property {string} kind as `short`
 * @property {string[]} nets
 * @property {string} layer
 * @property {number} x
 * @property {number} y
 * @property {string} [reason]
 * @property {string} [by] who accepted it
 */

/** A file's first bytes, in which its first finding lies. */
const HEAD = 65_536;
/** Places that are nearer to each other than this are one, in mm. */
const NEAR = 0.1;

/** Copper without a name is called by a place of it, which moves with the pitch. */
const UNNAMED = /^copper at \(.*\)$/;

/**
 * The nets of a finding in one order; those without a name are alike, since the finding's own place tells them apart.
 * @param {string[]} nets
 */
const namesOf = (nets) => nets.map((net) => (UNNAMED.test(net) ? "copper" : net)).sort().join("\n");

/**
 * Whether two findings are one.
 * @param {Kept} one
 * @param {Kept} other
 */
export function isSame(one, other) {
  return one.kind === other.kind && one.layer === other.layer && Math.hypot(one.x - other.x, one.y - other.y) < NEAR
    && namesOf(one.nets) === namesOf(other.nets);
}

/** Accepted findings by their kinds and layers, so that each is found without looking at all. */
export class AcceptedFindings {
  /** @param {Kept[]} findings */
  constructor(findings) {
    /** @type {Map<string, Kept[]>} */
    this.known = new Map();
    for (const finding of findings) this.known.set(keyOf(finding), [...this.known.get(keyOf(finding)) ?? [], finding]);
  }

  /**
   * The accepted finding that is this one; null where none is.
   * @param {Kept} finding
   * @returns {Kept | null}
   */
  of(finding) {
    return this.known.get(keyOf(finding))?.find((known) => isSame(known, finding)) ?? null;
  }
}

/** @param {Kept} finding */
const keyOf = ({ kind, layer }) => `${kind}\n${layer}`;

/**
 * The line of a finding.
 * @param {Kept} finding
 */
export function lineOf({ kind, nets, layer, x, y, reason, by }) {
  return JSON.stringify({ kind, nets, layer, x: Number(x.toFixed(4)), y: Number(y.toFixed(4)), reason, by: by || undefined });
}

/**
 * The file of accepted findings, as `readAccepted` reads it.
 * @param {Kept[]} findings
 */
export const acceptedText = (findings) => findings.map((finding) => `${lineOf(finding)}\n`).join("");

/**
 * Whether a file is one of accepted findings: its first line that is none of comments is such a finding.
 * @param {Uint8Array} bytes
 */
export function isAcceptedFile(bytes) {
  const first = utf8(bytes.subarray(0, HEAD)).split(/\r\n|\r|\n/).find((line) => line.trim() !== "" && !line.startsWith("#"));
  return first !== undefined && readAccepted(first).findings.length > 0;
}

/**
 * @param {*} value
 * @returns {value is Kept}
 */
function isKept(value) {
  return value !== null && typeof value === "object" && typeof value.kind === "string" && typeof value.layer === "string"
    && Array.isArray(value.nets) && value.nets.every((/** @type {*} */ net) => typeof net === "string")
    && Number.isFinite(value.x) && Number.isFinite(value.y) && typeof value.reason === "string" && value.reason !== ""
    && (value.by === undefined || typeof value.by === "string");
}

/**
 * Reads accepted findings; blank lines and those that begin with # are left out.
 * @param {string} text
 * @returns {{findings: Kept[], refusals: {line: number, what: string}[]}}
 */
export function readAccepted(text) {
  /** @type {Kept[]} */
  const findings = [];
  /** @type {{line: number, what: string}[]} */
  const refusals = [];
  text.split(/\r\n|\r|\n/).forEach((line, at) => {
    if (line.trim() === "" || line.startsWith("#")) return;
    try {
      const value = JSON.parse(line);
      if (isKept(value)) findings.push(value);
      else refusals.push({ line: at + 1, what: "it has no kind, nets, layer, x, y and reason of an accepted finding" });
    } catch {
      refusals.push({ line: at + 1, what: "it is no JSON of an accepted finding" });
    }
  });
  return { findings, refusals };
}

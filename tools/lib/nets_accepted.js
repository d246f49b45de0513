// The file of accepted findings of a board: what in it is found still, what is gone, and what is added.

import { existsSync } from "node:fs";
import { refusalText } from "../../web/convert/index.js";
import { counted, isSame, lineOf, readAccepted } from "../../web/nets/index.js";
import { utf8 } from "../../web/bytes/index.js";
import { Failure, say } from "./command.js";
import { noteWritten, readBytes, replaceFile } from "./files.js";
import { isStream } from "./whole.js";

/** What the file is called in a board's folder. */
export const NAME = "nets.accepted";

/** @param {import("../../web/nets/index.js").Kept} finding */
const words = ({ kind, nets, layer, x, y, reason, by }) => `${kind}: ${nets.join(" and ")} at (${x.toFixed(3)}, ${y.toFixed(3)}) on ${layer}: ${reason}${
  by ? ` (${by})` : ""}`;

export class Accepted {
  /**
   * @param {string} path of a file that may not be there
   * @throws {Failure} with each refused line
   */
  constructor(path) {
    this.path = path;
    const { findings, refusals } = existsSync(path) ? readAccepted(utf8(readBytes(path))) : { findings: [], refusals: [] };
    if (refusals.length) throw new Failure(refusals.map((refusal) => `${path}: ${refusalText(refusal)}`).join("\n"));
    this.findings = findings;
    this.used = new Set();
  }

  /**
   * Whether a finding is accepted.
   * @param {import("../../web/nets/index.js").Kept} finding
   */
  has(finding) {
    const found = this.findings.find((known) => isSame(known, finding));
    if (found) this.used.add(found);
    return found !== undefined;
  }

  /**
   * Accepts findings.
   * @param {import("../../web/nets/index.js").Kept[]} findings
   * @param {string} reason
   */
  add(findings, reason) {
    const added = findings.map((finding) => ({ ...finding, reason }));
    this.append(added.map((finding) => `${lineOf(finding)}\n`).join(""));
    this.findings.push(...added);
    for (const finding of added) this.used.add(finding);
  }

  // The file is written anew: a line that is cut short would be refused by the next run.
  /** @param {string} lines */
  append(lines) {
    const before = existsSync(this.path) && !isStream(this.path) ? readBytes(this.path) : new Uint8Array(0);
    const isCut = before.length > 0 && before[before.length - 1] !== 10;
    replaceFile(this.path, Buffer.concat([before, Buffer.from(`${isCut ? "\n" : ""}${lines}`)]));
    noteWritten(this.path);
  }

  get kept() {
    return this.findings.filter((finding) => this.used.has(finding));
  }

  get gone() {
    return this.findings.filter((finding) => !this.used.has(finding));
  }

  tell() {
    const { kept, gone } = this;
    if (kept.length) say(`${counted(kept.length, "finding")} accepted in ${this.path}:`);
    for (const finding of kept) say(`  ${words(finding)}`);
    for (const finding of gone) say(`accepted and gone: ${words(finding)}`);
  }
}

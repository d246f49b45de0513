// The files that a walk drops on the page: small boards of the repository, files that must be converted or are refused, and
// some that are made for it.

import { readFileSync, readdirSync, statSync } from "node:fs";
import { join } from "node:path";
import { EXAMPLES, REPOSITORY, gerber } from "../support.js";
import { layOut } from "../saving.js";

const CASES = join(REPOSITORY, "tools", "cases");
const FOLDERS = [join(EXAMPLES, "kicad"), join(EXAMPLES, "kicad_angles"), join(EXAMPLES, "blinker"), join(EXAMPLES, "one_flash"),
  ...["altium", "eagle", "fritzing", "refused"].map((name) => join(CASES, "board", name)), join(CASES, "drill"),
  join(CASES, "gerber_layers"), join(CASES, "old_gerber"), join(CASES, "items")];
// Larger ones take the time of a walk.
const LARGEST = 40000;

// A row of pads, the same at other places, and slots: files of a few items.
function made(folder) {
  const pads = (count, y) => gerber(...Array.from({ length: count }, (_, at) => `X${at * 2000000}Y${y}D03*`));
  layOut([["pads.gtl", pads(12, 0)], ["pads.gbl", pads(7, 3000000)], ["more.gtl", pads(4, 6000000)],
    ["slots.drl", "M48\nMETRIC\nT1C1.0\nT2C0.5\n%\nG05\nT1\nX0.0Y0.0\nX9.0Y9.0\nT2\nX4.0Y-2.0\nM30\n"],
    ["empty.gto", gerber()], ["broken.gts", gerber("X0Y0D03*", "D99*")], ["nothing.gbs", ""], ["notes.txt", "no layer\n"],
    ["old.gbo", "%FSLAX36Y36*MOMM*%\n%ADD10C,1.0*%\nG54D10*\nX0Y0D03*\nM00*\n"]], folder);
  return folder;
}

// The paths of files, those of one folder next to one another.
export function filesFor(folder) {
  return [made(folder), ...FOLDERS].map((where) => readdirSync(where).sort().map((name) => join(where, name))
    .filter((path) => statSync(path).isFile() && statSync(path).size < LARGEST));
}

// Whether bytes are those of a file that was dropped.
export class Dropped {
  constructor() {
    this.known = new Set();
  }

  add(paths) {
    for (const path of paths) this.known.add(readFileSync(path).toString("latin1"));
  }

  has(bytes) {
    return this.known.has(bytes.toString("latin1"));
  }
}

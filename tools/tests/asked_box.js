// The boxes that the station answers, by the C library as Python calls it.

import { existsSync } from "node:fs";
import { join } from "node:path";
import { kindOf } from "../../web/board/file_kinds.js";
import { headOf } from "../lib/files.js";
import { skip } from "./harness.js";
import { REPOSITORY, newRoom, runProgram } from "./support.js";

const ASKING = `
import json, pathlib, sys
import camplot

boxes = []
for kind, path in zip(sys.argv[2::2], sys.argv[3::2]):
    with camplot.Station(library=sys.argv[1]) as station:
        getattr(station, f"load_{kind}")("a", pathlib.Path(path).read_bytes())
        boxes.append([float(side) for side in station.ask("box a").split()])
print(json.dumps(boxes))`;

// The library that ./demo built, else one over what the gate has proved.
function library() {
  const built = join(REPOSITORY, "crates", "camplot", "out", "libcamplot.so");
  if (existsSync(built)) return built;
  const made = newRoom();
  const { status } = runProgram(join(REPOSITORY, ".ci", "library"), ["make", made]);
  const path = join(made, "libcamplot.so");
  if (status !== 0 || !existsSync(path)) skip("libcamplot.so is not built");
  return path;
}

/**
 * The box of each file's layer: left, low, right and high in nm. The test is left out where the library is not built.
 * @param {string[]} paths
 * @returns {number[][]}
 */
export function askedBoxes(paths) {
  const words = paths.flatMap((path) => [kindOf(headOf(path)), path]);
  const done = runProgram("env", [`PYTHONPATH=${join(REPOSITORY, "python")}`, "PYTHONDONTWRITEBYTECODE=1", "python3", "-c", ASKING,
    library(), ...words]);
  if (done.status !== 0) throw new Error(done.stderr);
  return JSON.parse(done.stdout);
}

// The tools in a copied folder where no program is built: the module of the page serves in its place, and they print and
// write the same.

import assert from "node:assert/strict";
import { copyFileSync, cpSync, existsSync, mkdirSync, readFileSync, readdirSync, rmSync, statSync, writeFileSync } from "node:fs";
import { join } from "node:path";
import { CASES, PROGRAM, REPOSITORY, needProgram, newRoom, runProgram } from "./support.js";
import { skip, suite, test } from "./harness.js";

const MODULE = join(REPOSITORY, "web", "out", "station.wasm");
const isCopied = (path) => !/[\\/](tests|cases|out|node_modules)$/.test(path);

// A folder with the tools, the module and a board; with the program where it is built, or without it.
function copied(hasProgram) {
  const top = join(newRoom(), "copy"), built = join(top, "crates", "camplot", "out");
  for (const name of ["tools", "web"]) cpSync(join(REPOSITORY, name), join(top, name), { recursive: true, filter: isCopied });
  for (const folder of [built, join(top, "web", "out"), join(top, "docs")]) mkdirSync(folder, { recursive: true });
  copyFileSync(MODULE, join(top, "web", "out", "station.wasm"));
  copyFileSync(join(REPOSITORY, "docs", "refusals.md"), join(top, "docs", "refusals.md"));
  cpSync(join(REPOSITORY, "examples", "kicad"), join(top, "kicad"), { recursive: true });
  copyFileSync(join(CASES, "old_gerber", "plotter.gbr"), join(top, "old.gbr"));
  copyFileSync(join(CASES, "drill", "kicad_mm_leading.drl"), join(top, "holes.drl"));
  writeFileSync(join(top, "broken.gbr"), "%FSLAX46Y46*%\n%MOMM*%\nD10*\nX0Y0D03*\nM02*\n");
  // Lines that are accepted, refused, and of files that are not there.
  writeFileSync(join(top, "edits"), "move top 6 1000000 0\ndelete top 7\nplot top after.pbm\nwrite top after.gbr\nundo\nundo\n"
    + "undo\nload more gerber nowhere.gbr\nload folder gerber ..\n# a comment\nplot top before.pbm\nlist\n");
  if (hasProgram) copyFileSync(PROGRAM, join(built, "camplot"));
  return top;
}

// Every file below a folder with its bytes.
function filesUnder(folder, before = "") {
  return readdirSync(join(folder, before)).sort().flatMap((name) => {
    const path = join(before, name);
    return statSync(join(folder, path)).isDirectory() ? filesUnder(folder, path)
      : [[path, readFileSync(join(folder, path)).toString("base64")]];
  });
}

suite("without the program", () => {
  for (const [name, ...words] of [
    ["board", "kicad", "--out", "made", "--edits", "edits"], ["board", "broken.gbr", "holes.drl", "--out", "made"],
    ["fit", "kicad/nightlight-F_Cu.gbr", "kicad/nightlight-PTH.drl", "broken.gbr"], ["items", "kicad/nightlight-F_Cu.gbr"],
    ["items", "broken.gbr"], ["nets", "kicad"], ["to_xnc", "holes.drl", "-o", "made.drl"], ["to_gerber", "old.gbr", "-o", "made.gbr"],
    ["to_gerber", "broken.gbr", "-o", "made.gbr"],
  ]) {
    test([name, ...words].join(" "), () => {
      if (!existsSync(MODULE)) skip("web/out/station.wasm is not built");
      needProgram();
      const [by, without] = [true, false].map((hasProgram) => {
        const top = copied(hasProgram), { status, stdout, stderr } = runProgram(process.execPath, [join("tools", name), ...words], top);
        const made = filesUnder(top).filter(([path]) => path.startsWith("made"));
        return { status, stdout, stderr, made };
      });
      assert.deepEqual(without, by);
      assert.ok(by.status < 2 || name === "items", by.stderr);
    });
  }

  test("and without the module, which the tools ask about layers, that is told", () => {
    if (!existsSync(MODULE)) skip("web/out/station.wasm is not built");
    needProgram();
    const top = copied(true);
    rmSync(join(top, "web", "out", "station.wasm"));
    for (const words of [["items", "old.gbr"], ["fit", "kicad/nightlight-PTH.drl"], ["board", "kicad"], ["nets", "kicad"]]) {
      const done = runProgram(process.execPath, [join("tools", words[0]), words[1]], top);
      assert.equal(done.status, 2, words[0]);
      assert.match(done.stderr, /station\.wasm does not exist/);
    }
  });

  test("a program that is named and not there is told", () => {
    if (!existsSync(MODULE)) skip("web/out/station.wasm is not built");
    const top = copied(false), done = runProgram(process.execPath, [join("tools", "board"), "kicad", "--camplot", "nowhere"], top);
    assert.equal(done.status, 2);
    assert.match(done.stderr, /nowhere does not exist/);
  });
});

// Mistakes that people make with the tools, each with the line that is printed: tools/cases/mistakes.json.

import assert from "node:assert/strict";
import { copyFileSync, cpSync, existsSync, mkdirSync, readFileSync, writeFileSync } from "node:fs";
import { join } from "node:path";
import { part, skip, suite, test } from "./harness.js";
import { CASES, PROGRAM, REPOSITORY, newRoom, needProgram, runProgram } from "./support.js";

/** @typedef {{call: string[], status: number, line: string, input?: string}} Mistake */

/** @type {Mistake[]} */
const ROWS = JSON.parse(readFileSync(join(CASES, "mistakes.json"), "utf8"));
// The converters, the page and the nets' netlist are all that needs no module.
const NO_MODULE = ["tools/to_gerber", "tools/to_xnc"];
const HEAD = "%FSLAX46Y46*%\n%MOMM*%\n";
const FILES = { "empty.gbr": `${HEAD}M02*\n`, "cut.gbr": `${HEAD}%ADD10C,1*%\nD10*\nX0Y0D03*\n`, "old.art.gbr": "mine",
  "no_unit.drl": "T1C0.8\n%\nT1\nX1000Y1000\nM30\n", "long.drl": "M48\nINCH,LZ\nT1C0.032\n%\nT1\nX1234567Y1\nM30\n",
  "notes.txt": "to do\n", "edits": "move top 0 1000 0\nmove top 99 0 0\nmov top 0 0 0\nmove top 0 1.5 0\nflash\npolarity top 0 black\n"
    + "plot top no/such.pbm\ninsert top 0 flsh 10 0 0 r0 dark\nmove topp 0 0 0\nload top gerber files/top.gbr\nmove top 0 0\nundo undo\n" };

// A room with the files that the calls name.
function laid() {
  const room = newRoom(), from = (path, name) => copyFileSync(join(REPOSITORY, path), join(room, name));
  for (const [name, text] of Object.entries(FILES)) writeFileSync(join(room, name), text);
  from("examples/blinker/blinker-F_Cu.gbr", "top.gbr");
  from("examples/blinker/blinker.drl", "holes.drl");
  from("examples/kicad_angles/windrose-F_Cu.gbr", "angled.gbr");
  from("tools/cases/old_gerber/allegro_pairs.art", "old.art");
  from("tools/cases/board/refused/b-PTH.drl", "pointless.drl");
  for (const name of ["Rev A.gbr", "größe.gbr"]) copyFileSync(join(room, "top.gbr"), join(room, name));
  for (const name of ["bare", "full", "deep/drill", "deep/old", "split/drill", "holes", "taken"]) mkdirSync(join(room, name), { recursive: true });
  for (const name of ["full/file", "taken/top.pbm"]) writeFileSync(join(room, name), "mine");
  for (const name of ["deep/top.gbr", "split/top.gbr"]) copyFileSync(join(room, "top.gbr"), join(room, name));
  for (const name of ["deep/drill/a.drl", "deep/old/b.drl", "split/drill/a.drl", "holes/a.drl"]) copyFileSync(join(room, "holes.drl"), join(room, name));
  cpSync(join(REPOSITORY, "examples", "kicad"), join(room, "kicad"), { recursive: true, filter: (path) => !/kicad\/(board|panel)/.test(path) });
  return room;
}

suite("mistakes", () => {
  for (const { call, status, line, input } of ROWS) {
    test(`${call.join(" ")}: ${line}`, () => {
      needProgram();
      if (!NO_MODULE.includes(call[0]) && !existsSync(join(REPOSITORY, "web", "out", "station.wasm"))) skip("web/out/station.wasm is not built");
      const room = laid(), [tool, ...words] = call, camplot = words.includes("--camplot") || tool === "tools/items" ? [] : ["--camplot", PROGRAM];
      const shell = ["-c", `${input === undefined ? "" : "printf '%s' \"$INPUT\" | "}"$@"`, "-", process.execPath, join(REPOSITORY, tool), ...words, ...camplot];
      const done = runProgram("env", [`INPUT=${input ?? ""}`, "bash", ...shell], room), printed = `${done.stdout}${done.stderr}`.split("\n");
      assert.ok(printed.includes(line), `'${line}' is no line of:\n${printed.join("\n")}`);
      assert.equal(done.status, status);
      part("no stack trace is printed", () => assert.doesNotMatch(done.stderr, /^ {4}at /m));
    });
  }

  test("are sixty, and no two the same", () => {
    assert.ok(ROWS.length >= 60, String(ROWS.length));
    assert.equal(new Set(ROWS.map(({ call, line }) => `${call.join(" ")}: ${line}`)).size, ROWS.length);
  });
});

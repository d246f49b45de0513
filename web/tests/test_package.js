// The station as a package for node: packed, installed in an empty folder without a network, and used there.

import assert from "node:assert/strict";
import { copyFileSync, existsSync, readFileSync, readdirSync, writeFileSync } from "node:fs";
import { join } from "node:path";
import { spawnSync } from "node:child_process";
import { MODULE, REPOSITORY, program, room, runProgram } from "./support.js";
import { Refused, Station } from "../package/index.js";
import { skip, suite, test } from "../../tools/tests/harness.js";

const WEB = join(REPOSITORY, "web");
const LAYER = join(REPOSITORY, "examples", "blinker", "blinker-F_Cu.gbr");

const withModule = () => {
  if (!existsSync(MODULE)) skip("web/out/station.wasm is not built");
  return new WebAssembly.Module(readFileSync(MODULE));
};

function ran(folder, words) {
  const told = spawnSync(words[0], words.slice(1), { cwd: folder, encoding: "utf8", env: { ...process.env, npm_config_cache: room() } });
  assert.equal(told.status, 0, `${words.join(" ")}: ${told.stderr ?? told.error}`);
  return told.stdout;
}

suite("the package", () => {
  test("is packed, installed offline, and its example runs", () => {
    withModule();
    if (spawnSync("npm", ["--version"]).status !== 0) skip("npm is not installed (Debian: npm)");
    if (MODULE !== join(WEB, "out", "station.wasm")) skip("the module is not in web/out");
    const folder = room();
    ran(WEB, ["npm", "pack", "--pack-destination", folder]);
    const packed = readdirSync(folder).filter((name) => name.endsWith(".tgz"));
    assert.deepEqual(packed, [`camplot-${JSON.parse(readFileSync(join(WEB, "package.json"), "utf8")).version}.tgz`]);
    writeFileSync(join(folder, "package.json"), '{ "private": true, "type": "module" }');
    ran(folder, ["npm", "install", "--offline", "--no-audit", "--no-fund", packed[0]]);
    const installed = join(folder, "node_modules", "camplot");
    assert.deepEqual(readdirSync(installed).sort(), ["out", "package", "package.json", "station"]);
    copyFileSync(join(installed, "package", "example.js"), join(folder, "example.js"));
    const said = ran(folder, ["node", "example.js", LAYER]).trim().split("\n");
    assert.equal(said.length, 6);
    // what it undoes is what was there before
    assert.equal(said[1].replace(/^item \d+: /, ""), said[5].replace(/^undone: /, ""));
    assert.notEqual(said[2].replace(/^moved: +/, ""), said[5].replace(/^undone: /, ""));
    assert.equal(readFileSync(join(folder, "top.pbm")).subarray(0, 10).toString(), "P4\n528 528");
  });

  test("answers what the program answers", async () => {
    const station = await Station.open({ depth: 5, module: withModule() });
    program();
    const folder = room(), lines = ["load top gerber top.gbr", "# a comment", "move top 0 1000 -2000", "window 119000000 -103000000 25000 1280 960",
      "plot top top.pbm", "nonsense", "undo", "undo", "write top top.txt"];
    copyFileSync(LAYER, join(folder, "top.gbr"));
    writeFileSync(join(folder, "script"), lines.map((line) => `${line}\n`).join(""));
    const answers = lines.map((line) => station.apply(line, line.startsWith("load") ? readFileSync(LAYER) : null));
    assert.equal(answers.map(({ reply }) => reply).filter((reply) => reply).map((reply) => `${reply}\n`).join(""),
      runProgram(folder, "script").stdout);
    assert.deepEqual(Buffer.from(answers[4].file), readFileSync(join(folder, "top.pbm")));
    assert.deepEqual(Buffer.from(answers[8].file), readFileSync(join(folder, "top.txt")));
    assert.deepEqual(answers.map(({ code }) => code), [0, 0, 0, 0, 0, 80, 0, 70, 0]);
    station.close();
  });

  test("what is refused is an error with its number", async () => {
    const station = await Station.open({ module: withModule() });
    const is = (code, line) => (fault) => fault instanceof Refused && fault.code === code && fault.line === line;
    assert.throws(() => station.run("move top 0 1 1"), is(60, "move top 0 1 1"));
    assert.throws(() => station.ask("box top"), is(60, "box top"));
    assert.throws(() => station.redraw(1), is(84, "redraw 1"));
    assert.throws(() => station.run("load top gerber top.gbr", "no gerber"), (fault) => /^refused \d+ 0: load/.test(fault.message));
    assert.equal(station.tile(0, 0), null);
    for (const depth of [0, 1001, 1.5, "5"]) await assert.rejects(Station.open({ depth }), RangeError);
    station.run("load top gerber top.gbr", readFileSync(LAYER));
    station.run("window 119000000 -103000000 25000 1280 960");
    assert.equal(station.redraw(3), 3);
    assert.equal(station.tile(0, 0).length, 512);
    assert.equal(station.ask("attributes top").length > 0, true);
    station.close();
  });
});

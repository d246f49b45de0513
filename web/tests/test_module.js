// The module is the same station: scripts by it and by the program. It is played in node; and in a browser, there also as
// it was linked, for memories of 64 bits.

import assert from "node:assert/strict";
import { existsSync, readFileSync } from "node:fs";
import { join } from "node:path";
import { spawnSync } from "node:child_process";
import { Browser, chromium } from "./browser.js";
import { MODULE, REPOSITORY, room } from "./support.js";
import { afterwards, skip, suite, test } from "../../tools/tests/harness.js";
import { blackBoxCases, differences, pageOfModules, randomScripts } from "./cases.js";
import { differencesOf } from "./scripts.js";

const SCRIPTS = Number(process.env.SCRIPTS ?? 1000);

const WIDE = MODULE.replace(/\.wasm$/, "64.wasm");

// How scripts are played: by which module, and what asks it.
async function players() {
  if (!existsSync(MODULE)) skip("web/out/station.wasm is not built");
  const here = new WebAssembly.Module(readFileSync(MODULE));
  const found = { "node, 32 bits": async (cases) => differencesOf(here, cases.map((each) => JSON.parse(each))) };
  if (!chromium()) return found;
  const modules = [[32, MODULE], [64, WIDE]].filter(([, path]) => existsSync(path));
  const browser = await Browser.open(pageOfModules(modules));
  afterwards(() => browser.close());
  for (const [bits] of modules) {
    found[`a browser, ${bits} bits`] = (cases) => browser.ask(`differencesOf(${bits}, [${cases.join(",")}])`);
  }
  return found;
}

suite("the same station", () => {
  test("scripts at random by the module and by the program", async () => {
    const cases = randomScripts(SCRIPTS);
    assert.deepEqual(await differences(cases, await players()), []);
  });

  test("the cases of black_box that need lines and files alone", async () => {
    const cases = blackBoxCases();
    assert.deepEqual(await differences(cases, await players()), []);
  });
});

suite("the module's C", () => {
  for (const [name, define] of [["heap", "HEAP_TEST"], ["builtins", "BUILTINS_TEST"]]) {
    test(name, () => {
      const folder = join(REPOSITORY, "web", "module"), made = join(room(), name);
      const built = spawnSync("gcc", ["-std=gnu11", "-O2", "-Wall", "-Wextra", "-Werror", `-D${define}`, "-o", made,
        join(folder, `${name}_test.c`), join(folder, `${name}.c`)], { encoding: "utf8" });
      assert.equal(built.status, 0, built.stderr);
      const told = spawnSync(made, { encoding: "utf8" });
      assert.match(told.stdout.trim().split("\n").pop(), /^\w+: \d+ passed, 0 failed$/);
    });
  }
});

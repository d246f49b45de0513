// Runs the tests of the tools and of the page's modules: every test_*.js of tools/tests and of web/tests.

import { existsSync, readdirSync } from "node:fs";
import { dirname, join, resolve } from "node:path";
import { fileURLToPath, pathToFileURL } from "node:url";
import { perform } from "../lib/command.js";
import { Skipped, runTest, tests } from "./harness.js";

const REPOSITORY = dirname(dirname(dirname(fileURLToPath(import.meta.url))));
// What a failed test says is cut to these lines.
const LINES = 12;

const COMMAND = {
  tool: "tools/test",
  about: `Runs the tests of the tools: every test_*.js of tools/tests and web/tests.

  tools/test                         all tests, with the program that \`rt run\` in crates/camplot builds
  tools/test --camplot PROGRAM       with another program
  tools/test board page              only the tests whose names have one of these words
  tools/test --in web                only those of web/tests

It prints a line for each test that was left out, with the reason, and for each that failed. The last line is
'N passed, M failed', and ', K skipped' if some were left out; the exit status is 0 if M is 0, else 1, and 2 if the words
of the call do not fit.`,
  operand: { name: "WORD", isMany: true, isOptional: true, help: "run the tests whose names have one of these words" },
  options: [
    { name: "--in", value: "FOLDER", choices: ["tools", "web"], help: "only the tests of this folder" },
    { name: "--camplot", value: "PROGRAM", help: "the program to run",
      otherwise: join(REPOSITORY, "crates", "camplot", "out", "camplot") },
  ],
};

async function load(only) {
  for (const folder of ["tools", "web"].filter((name) => only === null || name === only)
    .map((name) => join(REPOSITORY, name, "tests"))) {
    const names = existsSync(folder) ? readdirSync(folder).sort() : [];
    for (const name of names.filter((found) => /^test_\w+\.js$/.test(found))) {
      const before = tests.length;
      await import(pathToFileURL(join(folder, name)).href);
      for (const test of tests.slice(before)) test.id = `${name.slice(0, -3)}: ${test.name}`;
    }
  }
}

function toldFault(fault) {
  return String(fault?.stack ?? fault).split("\n").slice(0, LINES).join("\n");
}

async function main({ camplot, in: only, operands: words }) {
  process.env.CAMPLOT = resolve(camplot);
  if (!existsSync(camplot)) console.log(`tools: ${camplot} does not exist; tests that run it fail`);
  await load(only);
  const chosen = tests.filter(({ id }) => words.length === 0 || words.some((word) => id.includes(word)));
  let passed = 0, failed = 0, skipped = 0;
  for (const test of chosen) {
    try {
      await runTest(test);
      passed++;
    } catch (fault) {
      if (fault instanceof Skipped) {
        skipped++;
        console.log(`tools: ${test.id}: left out: ${fault.message}`);
      } else {
        failed++;
        console.log(`tools: ${test.id}: failed\n${toldFault(fault)}`);
      }
    }
  }
  console.log(`${passed} passed, ${failed} failed${skipped ? `, ${skipped} skipped` : ""}`);
  return failed ? 1 : 0;
}

await perform(COMMAND, main, process.argv.slice(2));

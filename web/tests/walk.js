// Walks over the page at random, as a user in a hurry with a browser that fails: node web/tests/walk.js --help.

import { existsSync, readFileSync } from "node:fs";
import { join, resolve } from "node:path";
import { REPOSITORY, builtPage } from "./support.js";
import { Fault, Walk } from "./walk/walk.js";
import { openBrowser } from "./tab.js";
import { fileURLToPath } from "node:url";
import { Failure, perform } from "../../tools/lib/command.js";

// Seeds that found something, or go where others do not; one for each line, with words for it after it.
const SEEDS = join(REPOSITORY, "web", "tests", "walk", "seeds");

export const keptSeeds = () => readFileSync(SEEDS, "utf8").split("\n").map((line) => Number.parseInt(line, 10)).filter((seed) => seed > 0);

const COMMAND = {
  tool: "web/tests/walk.js",
  about: `Walks over the page at random in a headless Chromium, and compares it after each gesture with a plain model and with the
program over the page's own script.

  node web/tests/walk.js                              the seeds of web/tests/walk/seeds, 100 gestures each
  node web/tests/walk.js --seed 7 --gestures 40       one walk
  node web/tests/walk.js --seed 1 --walks 100         those of seeds 1 to 100

A walk that fails prints its seed, its gestures so far, and what is wrong. The same seed makes the same gestures as long as
the page answers them alike. The last line is 'walk: N gestures, M of K walks failed'.`,
  operand: { name: "SEED", isMany: true, isOptional: true, help: "walk with these seeds" },
  options: [
    { name: "--seed", value: "S", isWhole: true, help: "walk with this seed, and with those that follow it" },
    { name: "--walks", value: "K", isWhole: true, otherwise: 1, help: "how many walks from that seed on" },
    { name: "--gestures", value: "N", isWhole: true, otherwise: 100, help: "how many gestures each has" },
    { name: "--seconds", value: "T", isWhole: true, help: "no new gesture after so many seconds" },
    { name: "--page", value: "FILE", help: "a page that is built, in place of one that is built now" },
    { name: "--camplot", value: "PROGRAM", otherwise: join(REPOSITORY, "crates", "camplot", "out", "camplot"), help: "the program" },
    { name: "--verbose", help: "prints each gesture as it is made" },
  ],
};

export function toldFault(fault) {
  return [`walk: seed ${fault.seed} failed at gesture ${fault.gestures.length}:`,
    ...fault.gestures.slice(-25).map((words, at, all) => `  ${fault.gestures.length - all.length + at + 1}. ${words}`),
    ...fault.faults.map((words) => `  WRONG: ${words}`),
    `  again: node web/tests/walk.js --seed ${fault.seed} --gestures ${fault.gestures.length}`].join("\n");
}

// Walks these seeds; how many gestures were made, and the faults.
export async function walked(seeds, gestures, { page = builtPage(), until = Infinity, told = () => {}, heard = () => {} } = {}) {
  const browser = await openBrowser();
  let made = 0;
  const faults = [];
  for (const seed of seeds) {
    if (Date.now() >= until) break;
    const walk = new Walk(browser, seed, page);
    walk.heard = heard;
    try {
      made += await walk.run(gestures, until);
    } catch (fault) {
      if (!(fault instanceof Fault)) throw fault;
      made += fault.gestures.length;
      faults.push(fault);
      told(toldFault(fault));
    }
  }
  return { made, faults };
}

async function main({ operands, seed, walks, gestures, seconds, page, camplot, verbose }) {
  process.env.CAMPLOT = resolve(camplot);
  if (!existsSync(camplot)) throw new Failure(`${camplot} does not exist`);
  const from = seed === null ? [] : Array.from({ length: walks }, (_, at) => seed + at);
  const given = [...operands.map(Number), ...from], seeds = given.length ? given : keptSeeds();
  const until = seconds === null ? Infinity : Date.now() + 1000 * seconds;
  const { made, faults } = await walked(seeds, gestures, { page: page ? resolve(page) : builtPage(), until, told: console.log,
    heard: verbose ? (words) => console.log(`  ${words}`) : () => {} });
  console.log(`walk: ${made} gestures, ${faults.length} of ${seeds.length} walks failed`);
  return faults.length ? 1 : 0;
}

if (fileURLToPath(import.meta.url) === resolve(process.argv[1] ?? "")) await perform(COMMAND, main, process.argv.slice(2));

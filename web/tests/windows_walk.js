// Walks at random over two to four windows of a model browser: node web/tests/windows_walk.js --help.

import { WindowsWalk } from "./windows/walk.js";
import { fileURLToPath } from "node:url";
import { perform } from "../../tools/lib/command.js";
import { resolve } from "node:path";

// Seeds whose first 1,000 gestures found something, next to those from 1 on that the gate walks: boards that nobody told were
// not kept (8), or deleted while they were read (10070, 10175) or written anew (40140), and boards that were taken and stayed once
// more (10262, 10779), also with files that were left closed (40231); and what walks were wrong about: lines that were kept between
// two gestures (10015, 10018, 10168), and a board of before that was closed at once (10024).
export const FOUND = [8, 10015, 10018, 10024, 10070, 10168, 10175, 10262, 10779, 40140, 40231];

const COMMAND = {
  tool: "web/tests/windows_walk.js",
  about: `Walks at random over two to four windows of a model browser, over the page's own machine, journal and boards, and compares what is
kept with what was promised.

  node web/tests/windows_walk.js                                           the seeds that found something
  node web/tests/windows_walk.js --seed 7                                  one walk
  node web/tests/windows_walk.js --seed 10001 --walks 1000                 those of seeds 10001 to 11000

A walk that fails prints its seed, its last gestures and what is wrong. The same seed makes the same gestures as long as the page
answers them alike. The last line is 'windows_walk: N gestures, M of K walks failed'.`,
  operand: { name: "SEED", isMany: true, isOptional: true, help: "walk with these seeds" },
  options: [
    { name: "--seed", value: "S", isWhole: true, help: "walk with this seed, and with those that follow it" },
    { name: "--walks", value: "K", isWhole: true, otherwise: 1, help: "how many walks from that seed on" },
    { name: "--gestures", value: "N", isWhole: true, otherwise: 1000, help: "how many gestures each has" },
  ],
};

async function main({ operands, seed, walks, gestures }) {
  const from = seed === null ? [] : Array.from({ length: walks }, (_, at) => seed + at);
  const seeds = operands.length || from.length ? [...operands.map(Number), ...from] : FOUND;
  let made = 0, failed = 0;
  for (const one of seeds) {
    const walk = new WindowsWalk(one);
    try {
      await walk.run(gestures);
    } catch (fault) {
      failed++;
      console.log(`windows_walk: ${fault.told ?? fault.stack}`);
    }
    made += walk.told.length;
  }
  console.log(`windows_walk: ${made} gestures, ${failed} of ${seeds.length} walks failed`);
  return failed ? 1 : 0;
}

if (fileURLToPath(import.meta.url) === resolve(process.argv[1] ?? "")) await perform(COMMAND, main, process.argv.slice(2));

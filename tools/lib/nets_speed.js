// speed/nets: how long the nets of a board take, and how much memory.

import { mkdtempSync, rmSync, writeFileSync } from "node:fs";
import { tmpdir } from "node:os";
import { join } from "node:path";
import { recogniseFiles } from "../../web/board/index.js";
import { Grid, breachesOf, counted, mm, netsOf, runsOf } from "../../web/nets/index.js";
import { inputs } from "./inputs.js";
import { DONE, perform, say } from "./command.js";
import { NetsBoard } from "./nets_board.js";
import { limitsOf } from "./nets_rules.js";
import { neededBy, sidesOf } from "./nets_sides.js";
import { PROGRAM } from "./places.js";
import { checkProgram } from "./station.js";

const COMMAND = {
  tool: "speed/nets",
  about: `Prints how long the nets of a board take at a pitch: the seconds of one processor from the pictures' bits on, and the
most memory of the process, pictures included. Give one pitch a call, since the memory is that of the whole run.

  speed/nets --pitch 10000             a dense board of 100 by 100 mm that it makes: four copper layers, 10^5 draws, 10^4 vias
  speed/nets --pitch 10000 FOLDER      a board of yours
  speed/nets --rules docs/rules        the rules of a file too, each with its seconds and how often it is broken
  speed/nets --write FOLDER            writes the dense board's files there`,
  operand: { name: "FOLDER", isOptional: true },
  options: /** @type {const} */ ([
    { name: "--pitch", value: "NM", isWhole: true, otherwise: 10_000, help: "the pitch in nm (10000)" },
    { name: "--rules", value: "FILE", help: "a file with the rules of a house" },
    { name: "--write", value: "FOLDER", help: "a folder for the files of the dense board" },
    { name: "--camplot", value: "PROGRAM", otherwise: PROGRAM, help: `the program (${PROGRAM})` },
  ]),
};

/** @typedef {Calls.Asked<typeof COMMAND>} Options */
/** @typedef {[x: number, y: number]} Spot */

const SIDE = 100_000_000, STEP = 300_000, DRAW = 1_320_000, VIAS = 10_000;

/** @param {number} seed */
function chances(seed) {
  let state = seed;
  return () => {
    state = (Math.imul(state, 1103515245) + 12345) >>> 0;
    return (state >>> 8) / 2 ** 24;
  };
}

// Tracks of 0.15 mm every 0.3 mm, along x or along y, each cut here and there.
/** @param {number} number @param {boolean} isAlongX @param {() => number} chance */
function denseLayer(number, isAlongX, chance) {
  const lines = [`%TF.FileFunction,Copper,L${number},${["Top", "Inr", "Inr", "Bot"][number - 1]}*%`, "%FSLAX46Y46*%", "%MOMM*%",
    "%ADD10C,0.15*%", "%LPD*%", "G01*", "D10*"];
  /** @param {number} along @param {number} across */
  const place = (along, across) => (isAlongX ? `X${along}Y${across}` : `X${across}Y${along}`);
  for (let across = STEP; across < SIDE; across += STEP) {
    lines.push(`${place(0, across)}D02*`);
    for (let along = DRAW; along < SIDE; along += DRAW) {
      const isCut = chance() < 0.05;
      lines.push(`${place(isCut ? along - 400_000 : along, across)}D01*`);
      if (isCut) lines.push(`${place(along, across)}D02*`);
    }
  }
  return [...lines, "M02*", ""].join("\n");
}

/** @param {() => number} chance @returns {Spot[]} */
function denseSpots(chance) {
  const spot = () => STEP * (1 + Math.floor(chance() * (SIDE / STEP - 2)));
  return Array.from({ length: VIAS }, () => [spot(), spot()]);
}

/** @param {Spot[]} spots */
function denseHoles(spots) {
  const hits = spots.map(([x, y]) => `X${(x / 1e6).toFixed(3)}Y${(y / 1e6).toFixed(3)}`);
  return ["M48", "; #@! TF.FileFunction,Plated,1,4,PTH", "METRIC", "T1C0.200", "%", "G05", "T1", ...hits, "M30", ""].join("\n");
}

// Mask with an opening at each via, paste in each third of them, and a sign of ink next to each fifth.
/** @param {string} layerFunction @param {number} size @param {string[]} lines */
function denseCover(layerFunction, size, lines) {
  return [`%TF.FileFunction,${layerFunction}*%`, "%FSLAX46Y46*%", "%MOMM*%", `%ADD10C,${size}*%`, "%LPD*%", "G01*", "D10*", ...lines, "M02*", ""].join("\n");
}

/** @param {Spot[]} spots @param {string} name @param {string} end @returns {[name: string, text: string][]} */
function denseCovers(spots, name, end) {
  /** @param {Spot} spot */
  const flash = ([x, y]) => `X${x}Y${y}D03*`;
  /** @param {Spot} spot */
  const sign = ([x, y]) => [`X${x + 300_000}Y${y}D02*`, `X${x + 700_000}Y${y + 300_000}D01*`, `X${x + 700_000}Y${y - 300_000}D01*`];
  return [[`${end}_Mask`, denseCover(`Soldermask,${name}`, 0.5, spots.map(flash))],
    [`${end}_Paste`, denseCover(`Paste,${name}`, 0.4, spots.filter((_, at) => at % 3 === 0).map(flash))],
    [`${end}_Silkscreen`, denseCover(`Legend,${name}`, 0.12, spots.filter((_, at) => at % 5 === 0).flatMap(sign))]];
}

/**
 * Writes the files of the dense board into a folder.
 * @param {string} folder
 */
function writeDense(folder) {
  const chance = chances(10);
  const names = ["F_Cu", "In1_Cu", "In2_Cu", "B_Cu"];
  names.forEach((name, at) => writeFileSync(join(folder, `dense-${name}.gbr`), denseLayer(at + 1, at % 2 === 0, chance)));
  const spots = denseSpots(chance);
  writeFileSync(join(folder, "dense-PTH.drl"), denseHoles(spots));
  for (const [end, text] of [...denseCovers(spots, "Top", "F"), ...denseCovers(spots, "Bot", "B")]) writeFileSync(join(folder, `dense-${end}.gbr`), text);
}

/** What work takes, in all. */
class Timer {
  constructor() {
    /** Of processors. */
    this.micros = 0;
    /** By the clock. */
    this.ms = 0;
  }

  /**
   * @template T
   * @param {() => T} work
   */
  timed(work) {
    const before = process.cpuUsage(), start = performance.now(), result = work();
    const { user, system } = process.cpuUsage(before);
    this.micros += user + system;
    this.ms += performance.now() - start;
    return { micros: user + system, result };
  }
}

// Each rule with its seconds, and how often it is broken.
/**
 * @param {NetsBoard} board
 * @param {{nets: import("../../web/nets/index.js").Nets, window: import("../../web/board/index.js").PlotWindow}} found
 * @param {Map<string, number>} limits
 * @param {Timer} timer
 */
function measureRules(board, { nets, window }, limits, timer) {
  const sides = sidesOf(board, window, []), checked = { nets, grid: new Grid(window), holes: board.holes(), spans: nets.holes, outline: board.outlines.closed, sides };
  for (const [rule, limit] of limits) {
    const { micros, result } = timer.timed(() => breachesOf(checked, new Map([[rule, limit]])));
    say(`${rule} ${mm(limit)}: ${(micros / 1e6).toFixed(2)} s, ${counted(result.length, "place")}`);
  }
}

/** @param {string} folder @param {Options} options */
function measure(folder, { pitch, camplot, rules }) {
  const limits = limitsOf(rules, []), board = new NetsBoard(recogniseFiles(inputs([folder]).files, false).layers, [], camplot, neededBy(limits));
  try {
    const window = board.window(pitch), timer = new Timer();
    /** @param {import("../../web/board/index.js").Layer} layer */
    const runs = (layer) => {
      const picture = board.picture(layer, window);
      return timer.timed(() => runsOf(picture)).result;
    };
    const copper = board.stack.copper.map(({ layer }) => runs(layer));
    const holes = board.stack.holes.map(({ layer, from, to }) => ({ runs: runs(layer), from, to }));
    const nets = timer.timed(() => netsOf(copper, holes)).result, count = nets.layers.reduce((sum, layer) => sum + layer.size, 0);
    measureRules(board, { nets, window }, limits, timer);
    const memory = Math.round(process.resourceUsage().maxRSS / 1024);
    say(`${window.width} x ${window.height} pixels of ${window.pitch} nm, ${nets.copper.length} copper layers: ${count} runs, ${
      nets.pieces} pieces, ${nets.count} nets; ${(timer.micros / 1e6).toFixed(2)} s of processors, ${
      (timer.ms / 1e3).toFixed(2)} s by the clock, ${memory} MB`);
  } finally {
    board.close();
  }
}

/** @param {Options} options */
function run(options) {
  if (options.write !== null) {
    writeDense(options.write);
    return DONE;
  }
  checkProgram(options.camplot);
  const room = mkdtempSync(join(tmpdir(), "camplot-dense-"));
  try {
    if (!options.operands.length) writeDense(room);
    measure(options.operands[0] ?? room, options);
    return DONE;
  } finally {
    rmSync(room, { recursive: true, force: true });
  }
}

/**
 * Runs the command with the words of a call.
 * @param {string[]} words
 */
export function main(words) {
  return perform(COMMAND, run, words);
}

// Fourteen kinds of board that a house gets, each of parts of 10 by 10 mm. Four rows of a part hold what is planted where faults are:
// nets A and B get the short, C the open, and D loses a hole.

import { MadeBoard } from "./made_boards.js";
import { box } from "./small_boards.js";

const TOP = 0, SIDE = 10, LEFT = 1, RIGHT = 7;
const THROUGH = { size: 1.2, hole: 0.6 };
/** @type {[net: string, y: number][]} */
const ROWS = [["A", 1], ["B", 3], ["C", 5], ["D", 7]];

/** Two pads of a row with holes, the left one of D's missing where faults are planted. */
function pins(board, net, y, pad = THROUGH) {
  [LEFT, RIGHT].forEach((x, at) => board.pad(net, [x, y], { part: `J${at + 1}`, pin: net, ...pad, isMissing: net === "D" && x === LEFT }));
}

/**
 * Two pads of a row on the top, each with a track to a via.
 * @param {MadeBoard} board
 * @param {string} net
 * @param {number} y
 * @param {import("./made_boards.js").Pad} pad size and shape of the pads, and what else there is of the vias
 */
function escapes(board, net, y, { size = 0.8, shape = undefined, ...via } = {}) {
  [[LEFT, 2], [RIGHT, 6]].forEach(([x, to], at) => {
    board.pad(net, [x, y], { part: `R${at + 1}`, pin: net, size, shape, span: [TOP, TOP] });
    board.track(net, TOP, 0.2, [x, y], [to, y]);
    board.pad(net, [to, y], { hole: 0.3, isMissing: net === "D" && x === LEFT, ...via });
  });
}

function throughHoles(board, pad = THROUGH) {
  for (const [net, y] of ROWS) pins(board, net, y, pad);
  board.track("A", TOP, 0.3, [LEFT, 1], [RIGHT, 1]);
  board.track("B", TOP, 0.3, [LEFT, 3], [RIGHT, 3]);
  board.short(TOP, ["A", "B"], [4, 1], [4, 3]);
  board.openTrack("C", board.last, 0.3, [LEFT, 5], [RIGHT, 5]);
  board.track("D", board.last, 0.3, [LEFT, 7], [RIGHT, 7]);
}

function planes(board) {
  board.plane("A", 1, box(0.2, 0.2, 8.6, 8.6));
  board.plane("B", 2, box(0.2, 0.2, 8.6, 8.6));
  for (const [net, y] of ROWS) {
    for (const x of [2, 6]) for (const layer of [1, 2]) if (net !== "AB"[layer - 1]) board.antipad(layer, [x, y], 1.2);
    escapes(board, net, y);
  }
  board.short(1, ["A", "B"], [2.2, 3], [2.7, 3]);
  board.openTrack("C", 3, 0.2, [2, 5], [6, 5]);
  board.track("D", 3, 0.2, [2, 7], [6, 7]);
}

function blindVias(board) {
  for (const [net, y] of ROWS) {
    escapes(board, net, y, { span: [0, 1], isMissing: false });
    if (net === "A" || net === "B") {
      board.track(net, 1, 0.2, [2, y], [6, y]);
      continue;
    }
    for (const [x, to] of [[2, 3], [6, 5]]) {
      board.track(net, 1, 0.2, [x, y], [to, y]);
      board.pad(net, [to, y], { hole: 0.25, span: [1, 2], isMissing: net === "D" && to === 3 });
    }
    if (net === "C") board.openTrack(net, 2, 0.2, [3, y], [5, y]);
    else board.track(net, 2, 0.2, [3, y], [5, y]);
  }
  board.short(1, ["A", "B"], [4, 1], [4, 3]);
  // One from the third layer to the bottom, and one through all.
  board.pad("E", [4, 8], { hole: 0.25, span: [2, 3] });
  board.track("E", 3, 0.2, [4, 8], [6, 8]);
  board.pad("E", [6, 8], { hole: 0.3 });
}

const slots = (board) => throughHoles(board, { ...THROUGH, shape: "O,2X1.2", length: 0.6 });

function castellated(board) {
  for (const [net, y] of ROWS) {
    [0, 8].forEach((x, at) => {
      board.pad(net, [x, y], { part: `M${at + 1}`, pin: net, ...THROUGH, use: "CastellatedPad", isMissing: net === "D" && x === 0 });
    });
  }
  board.track("A", TOP, 0.3, [0.4, 1], [7.6, 1]);
  board.track("B", TOP, 0.3, [0.4, 3], [7.6, 3]);
  board.short(TOP, ["A", "B"], [4, 1], [4, 3]);
  board.openTrack("C", 1, 0.3, [0.4, 5], [7.6, 5]);
  board.track("D", 1, 0.3, [0.4, 7], [7.6, 7]);
  board.outline(0, 0, 8, 8);
}

// A and C are one net, of a plane on the bottom: C's pad hangs on one spoke, which the fault cuts.
function thermals(board) {
  board.plane("A", 1, box(0.1, 0.1, 8.6, 8.6));
  for (const [, y] of ROWS) for (const x of [LEFT, RIGHT]) board.antipad(1, [x, y], 1.8);
  for (const [net, y] of ROWS) pins(board, net === "C" ? "A" : net, y);
  for (const x of [LEFT, RIGHT]) {
    for (const [across, up] of [[1.2, 0], [-0.8, 0], [0, 0.95], [0, -0.8]]) board.track("A", 1, 0.3, [x, 1], [x + across, 1 + up]);
  }
  board.track("A", 1, 0.3, [RIGHT, 5], [RIGHT, 6.2]);
  board.openTrack("A", 1, 0.2, [LEFT, 5], [2.5, 5], 0.1);
  board.track("B", TOP, 0.3, [LEFT, 3], [RIGHT, 3]);
  board.track("D", TOP, 0.3, [LEFT, 7], [RIGHT, 7]);
  board.short(1, ["A", "B"], [1.4, 3], [2.1, 3]);
}

const BALLS = 6, BALL_PITCH = 0.8;

function ballGrid(board) {
  for (let row = 0; row < BALLS; row++) {
    for (let column = 0; column < BALLS; column++) {
      const x = 2 + column * BALL_PITCH, y = 2 + row * BALL_PITCH, net = `N${row}${column}`;
      const via = /** @type {[number, number]} */ ([x + 0.4, y + 0.4]);
      board.pad(net, [x, y], { part: "U1", pin: `${"ABCDEF"[row]}${column}`, size: 0.4, span: [TOP, TOP], use: "BGAPad,CuDef" });
      if (row === 2 && column === 2) board.openTrack(net, TOP, 0.1, [x, y], via, 0.05);
      else board.track(net, TOP, 0.1, [x, y], via);
      board.pad(net, via, { size: 0.44, hole: 0.2, isMissing: row === 4 && column === 4 });
      board.track(net, 1, 0.1, via, [x + 0.4, y + 0.8]);
      board.pad(net, [x + 0.4, y + 0.8], { part: `T${row}${column}`, pin: "1", size: 0.24, span: [1, 1], use: "TestPad" });
    }
  }
  board.short(TOP, ["N00", "N01"], [2.1, 2], [2.7, 2]);
}

function netTies(board) {
  throughHoles(board);
  board.put(TOP, "A,B", ["G36*", ...[[2, 0.9], [2.4, 0.9], [2.4, 3.1], [2, 3.1], [2, 0.9]].map((place, at) => {
    const [x, y] = board.at(place).map((mm) => Math.round(mm * 1e6));
    return `X${x}Y${y}D0${at ? 1 : 2}*`;
  }), "G37*"]);
}

function mountingHoles(board) {
  for (const [net, y] of ROWS) escapes(board, net, y);
  for (const net of ["A", "B"]) board.track(net, 1, 0.2, [2, net === "A" ? 1 : 3], [6, net === "A" ? 1 : 3]);
  board.short(1, ["A", "B"], [4, 1], [4, 3]);
  board.openTrack("C", 1, 0.2, [2, 5], [6, 5]);
  board.track("D", 1, 0.2, [2, 7], [6, 7]);
  board.pad("N/C", [4, 6], { part: "H1", pin: "1", size: 1.6, hole: 0.8, isPlated: false });
  board.pad("N/C", [4, 8.2], { part: "H2", pin: "1", size: 0.9, hole: 0.9, isPlated: false });
}

// Two regions along a slanted line, 12 µm from each other.
function power(board) {
  const along = [0.6, 3], length = Math.hypot(...along), [across, up] = [along[1] / length, -along[0] / length];
  board.plane("A", TOP, [[0.3, 0.5], [4, 0.5], [4.6, 3.5], [0.3, 3.5]]);
  board.plane("B", TOP, [[4.012, 0.498], [8.4, 0.498], [8.4, 3.498], [4.612, 3.498]]);
  for (const [net, first, last] of /** @type {[string, number, number][]} */ ([["A", 1.5, 3], ["B", 5.7, 7.2]])) {
    [first, last].forEach((x, at) => board.pad(net, [x, 2], { part: `P${at + 1}`, pin: net, size: 1.2, hole: 0.7 }));
  }
  const place = (/** @type {number} */ way) => /** @type {[number, number]} */ ([4.306 + way * across, 1.999 + way * up]);
  board.short(TOP, ["A", "B"], place(-0.3), place(0.3), 0.3);
  for (const [net, y] of ROWS.slice(2)) pins(board, net, y);
  board.openTrack("C", 1, 0.8, [LEFT, 5], [RIGHT, 5], 0.05);
  board.track("D", 1, 0.8, [LEFT, 7], [RIGHT, 7]);
}

function arcs(board) {
  for (const [net, radius] of /** @type {[string, number][]} */ ([["A", 2], ["B", 3.2]])) {
    [-1, 1].forEach((side, at) => board.pad(net, [4 + side * radius, 4], { part: `C${at + 1}`, pin: net, size: 0.6, span: [TOP, TOP] }));
    board.arc(net, TOP, 0.25, [4 + radius, 4], [4 - radius, 4], [4, 4]);
  }
  board.short(TOP, ["A", "B"], [4, 6], [4, 7.2]);
  [2.8, 5.2].forEach((x, at) => board.pad("C", [x, 3.6], { part: `C${at + 3}`, pin: "1", size: 0.4, span: [TOP, TOP] }));
  board.arc("C", TOP, 0.25, [2.8, 3.6], [3.28, 2.64], [4, 3.6]);
  board.arc("C", TOP, 0.25, [4.72, 2.64], [5.2, 3.6], [4, 3.6]);
  board.openTrack("C", TOP, 0.25, [3.28, 2.64], [4.72, 2.64]);
  escapes(board, "D", 0.8);
  board.arc("D", 1, 0.25, [6, 0.8], [2, 0.8], [4, 0.8]);
}

/** A pad as a macro: a rectangle of half such sides, turned, with a disc at one of its corners. */
function turned(halfWidth, halfHeight, degrees) {
  const [cos, sin] = [Math.cos(degrees * Math.PI / 180), Math.sin(degrees * Math.PI / 180)];
  const corner = (/** @type {number} */ x, /** @type {number} */ y) => [x * cos - y * sin, x * sin + y * cos];
  return `TURNED,${[...corner(halfWidth, halfHeight), ...corner(-halfWidth, halfHeight), 0.2].map((value) => value.toFixed(4)).join("X")}`;
}

function macros(board) {
  ROWS.forEach(([net, y], at) => escapes(board, net, y, { size: 0.4, shape: turned(0.2, 0.4, 15 + 30 * at) }));
  for (const [net, y] of ROWS.filter(([name]) => name !== "C")) board.track(net, 1, 0.2, [2, y], [6, y]);
  board.openTrack("C", 1, 0.2, [2, 5], [6, 5]);
  board.short(1, ["A", "B"], [3.9, 1], [4.1, 3]);
}

// Nets C and D are on two sides of a wire through two holes.
function oneSided(board) {
  for (const [net, y] of ROWS.slice(0, 3)) {
    [LEFT, RIGHT].forEach((x, at) => board.pad(net, [x, y], { part: `L${at + 1}`, pin: net, size: 1.2 }));
    if (net === "C") board.openTrack(net, TOP, 0.4, [LEFT, y], [RIGHT, y]);
    else board.track(net, TOP, 0.4, [LEFT, y], [RIGHT, y]);
  }
  board.short(TOP, ["A", "B"], [4, 1], [4, 3]);
  board.pad("C", [RIGHT, 6.8], { part: "W1", pin: "1", ...THROUGH });
  board.track("C", TOP, 0.4, [RIGHT, 5], [RIGHT, 6.8]);
  board.pad("D", [LEFT, 7], { part: "W1", pin: "2", ...THROUGH, isMissing: true });
  board.pad("D", [4, 7], { part: "L3", pin: "D", size: 1.2 });
  board.track("D", TOP, 0.4, [LEFT, 7], [4, 7]);
  board.pad("N/C", [4, 8.2], { part: "H1", pin: "1", size: 0.9, hole: 0.9, isPlated: false });
}

/**
 * The kinds by their names: how many layers of copper, and what makes a part.
 * @typedef {{copper: number, part: (board: MadeBoard) => void, isPanel?: boolean, hasOutlines?: boolean, isFlat?: boolean}} Kind
 * @type {Map<string, Kind>}
 */
export const KINDS = new Map(Object.entries({
  "two layers, through holes": { copper: 2, part: throughHoles },
  "four layers with planes": { copper: 4, part: planes },
  "blind and buried vias": { copper: 4, part: blindVias },
  "plated slots": { copper: 2, part: slots },
  "a castellated edge": { copper: 2, part: castellated, hasOutlines: true },
  "thermal reliefs": { copper: 2, part: thermals },
  "a ball grid": { copper: 2, part: ballGrid },
  "a panel of repeats": { copper: 2, part: throughHoles, isPanel: true },
  "net ties": { copper: 2, part: netTies },
  "mounting holes without plating": { copper: 2, part: mountingHoles },
  "regions that nearly touch": { copper: 2, part: power },
  "arcs and rounded tracks": { copper: 2, part: arcs },
  "macros with turned pads": { copper: 2, part: macros },
  "one side with wires": { copper: 1, part: oneSided, isFlat: true },
}));

/**
 * A board of a kind.
 * @param {string} name
 * @param {() => number} chance
 * @param {number} count how many parts, or copies of a panel, lie along a side
 * @param {boolean} isPlanted whether one of them has faults
 */
export function madeBoard(name, chance, count, isPlanted) {
  const { copper, part, isPanel, hasOutlines } = /** @type {Kind} */ (KINDS.get(name));
  const micro = () => Math.floor(chance() * 1000) / 1000, board = new MadeBoard(copper, isPanel ? { count, step: SIDE } : null);
  const parts = isPanel ? 1 : count * count, faulty = Math.floor(chance() * parts);
  // No part is on a grid of pixels.
  const left = micro(), low = micro();
  for (let number = 0; number < parts; number++) {
    const corner = /** @type {[number, number]} */ ([left + number % count * SIDE + micro() / 5, low + Math.floor(number / count) * SIDE]);
    board.begin(number, corner, isPlanted && number === faulty);
    part(board);
  }
  board.begin(0, [left, low], false);
  const side = isPanel ? SIDE - 0.3 : count * SIDE;
  if (!hasOutlines) board.outline(-0.2, -0.2, side, side);
  return board;
}

// The worker of the nets: a station that follows the page's, and what the page asks of its nets. A message is
// { call, kind, .. }, and its answer { call, answer } or { call, fault }.

import { CheckedBoard } from "./checked_board.js";
import { Follower, MOST_SIDE } from "./follower.js";
import { Station } from "../station/index.js";
import { faultWords, unknown } from "./faults.js";
import { readNetlist } from "../nets/index.js";

/** @typedef {Worker.NetsAnswered[keyof Worker.NetsAnswered]} AnyAnswer */

/** @type {{ follower: Follower, board: CheckedBoard } | null} */
let opened = null;
// The check that is under way.
let checking = { isStopped: true };

// A check lets other messages in after so many ms.
const TURN_MS = 40;

function here() {
  if (!opened) throw new Error("no station is open");
  return opened;
}

/** @param {Worker.NetsAsked["open"]} message */
async function open({ module, depth, pitch }) {
  const compiled = await WebAssembly.compile(module);
  opened = { follower: new Follower(new Station(compiled, depth), pitch), board: new CheckedBoard(compiled) };
  return {};
}

// Lines that the page's station accepted, with the bytes of loads; what they joined and cut, in one.
/** @param {Worker.NetsAsked["lines"]} message @returns {Worker.NetsAnswered["lines"]} */
function lines({ lines: given }) {
  const start = performance.now(), { follower } = here();
  for (const line of given) follower.take(line);
  const changes = follower.settle();
  return { changes, ...about(), ms: performance.now() - start };
}

// What the page says of the nets as a whole.
/** @returns {Worker.NetsKnown} */
function about() {
  const { found, netlist, shift, misfit } = here().follower;
  if (!found?.desk.nets) return { count: null };
  const { desk, desk: { nets }, stack, window, shown } = found;
  return { count: nets.count, pieces: nets.pieces, pitch: window.pitch, window, shown,
    copper: desk.copperCount, missing: stack.missing, points: desk.points.length, isNetlist: netlist !== null, shift,
    misfit };
}

// All that hangs together with a place, on the first of some layers that is copper there.
/** @param {Worker.NetsAsked["net"]} message @returns {Worker.Over<Worker.NetsAnswered["net"]>} */
function net({ x, y, names }) {
  const { found } = here().follower;
  if (!found) return { net: null };
  const { desk, shown } = found;
  const order = names.map((name) => shown.indexOf(name)).filter((at) => at >= 0), number = desk.netAt(x, y, order);
  const its = number < 0 ? null : desk.about(number);
  return { net: its, ...about(), over: (its?.runs ?? []).map(({ buffer }) => buffer) };
}

/** @param {Worker.NetsAsked["netlist"]} message @returns {Worker.NetsAnswered["netlist"]} */
function netlist({ bytes }) {
  const { follower } = here();
  if (bytes === null) {
    follower.compareWith(null);
    return { refusals: [], ...about() };
  }
  const { netlist: read, refusals } = readNetlist(bytes);
  if (read) follower.compareWith(read);
  return { refusals, ...about() };
}

// Checks nets and rules, step by step; null where it was stopped, or where there is no copper. Meanwhile other messages are answered,
// and it tells how far it is.
/** @param {Worker.NetsAsked["check"]} message @returns {Promise<Worker.NetsAnswered["check"]>} */
async function check({ limits }) {
  const start = performance.now(), own = { isStopped: false }, { follower, board } = here(), { misfit, found } = follower;
  checking.isStopped = true;
  checking = own;
  if (!found) return { findings: null };
  const steps = board.steps(follower, { limits: new Map(limits), pitch: follower.pitch, most: MOST_SIDE, points: found.desk.points });
  let turned = start, next = steps.next();
  for (; next.done !== true; next = steps.next()) {
    if (performance.now() - turned < TURN_MS) continue;
    post({ kind: "checking", checking: next.value });
    await new Promise((done) => setTimeout(done, 0));
    if (own.isStopped) return { findings: null, isStopped: true };
    turned = performance.now();
  }
  return { findings: next.value && { ...next.value, misfit, ms: performance.now() - start } };
}

function stop() {
  checking.isStopped = true;
  return {};
}

/** @param {Worker.NetsAsked["near"]} message @returns {Worker.NetsAnswered["near"]} */
function near({ net: of, gap }) {
  const { found } = here().follower;
  return { near: found ? found.desk.nextTo(of, gap) : [] };
}

/** @param {Worker.ToNets} message @returns {Worker.Over<AnyAnswer> | Promise<Worker.Over<AnyAnswer>>} */
function answered(message) {
  switch (message.kind) {
    case "open": return open(message);
    case "lines": return lines(message);
    case "net": return net(message);
    case "netlist": return netlist(message);
    case "check": return check(message);
    case "stop": return stop();
    case "near": return near(message);
    default: return unknown(message);
  }
}

/** @type {(message: Worker.FromNets, over?: Transferable[]) => void} */
const post = (message, over = []) => self.postMessage(message, over);

self.onmessage = async (/** @type {MessageEvent<Worker.ToNets>} */ { data }) => {
  const { call } = data;
  try {
    const { over = [], ...answer } = await answered(data);
    post({ call, answer }, over);
  } catch (fault) {
    post({ call, fault: faultWords(fault) });
  }
};

// The worker: the station, and the messages of the page to it. A message is { number, kind, .. }, its answer has the same
// number; pictures come between them, without one. What the page asks goes before what is still to be drawn.

import { Station, inside, itemsOf, look } from "../station/index.js";
import { faultWords, unknown } from "./faults.js";
import { gap, shapes } from "./apart.js";
import { like, touched } from "./choosing.js";
import { lineOf } from "./answers.js";
import { near, pileAt, under } from "./lying.js";
import { tally } from "./tallies.js";
import { droppedOf, withAttributes } from "./attributes.js";
import { Drawing } from "./drawing.js";
import { Opened } from "./opened.js";
import { Telling } from "./telling.js";
import { compare, compareTwo, compareTwoView, compareView } from "./comparing.js";

// Lines of a gesture are applied for so long before the worker hears whether it is to be stopped: soon enough for a person who
// presses Escape, and not between any two lines.
const SLICE_MS = 50;

const text = new TextEncoder();
const words = new TextDecoder();

/**
 * What there is once the station is open; its layers are by their names, each with how many items it had when it was loaded.
 * @typedef {object} Open
 * @property {WebAssembly.Module} compiled
 * @property {Station} station
 * @property {Map<string, { kind: string, items: number }>} layers
 * @property {Drawing} drawing
 * @property {Telling} telling
 */
/** @type {Open | null} */
let opened = null;
// Whether lines are being applied, so that nothing is drawn between them; and whether they are to be stopped.
let isApplying = false, isStopping = false;

function here() {
  if (!opened) throw new Error("no station is open");
  return opened;
}

/** @type {Worker.PostFromStation} */
const post = (message, over = []) => self.postMessage(message, over);

// Draws on after every message that waits.
const channel = new MessageChannel();
let isGoing = false;
channel.port1.onmessage = () => {
  isGoing = false;
  if (isApplying || !opened) return;
  try {
    if (opened.drawing.step()) goOn();
  } catch (fault) {
    if (fault instanceof WebAssembly.RuntimeError) post({ fault: faultWords(fault) });
    else opened.drawing.stop(String(fault));
  }
};

function goOn() {
  if (isGoing) return;
  isGoing = true;
  channel.port2.postMessage(null);
}

/** @param {Worker.StationAsked["open"]} message */
async function open({ module, depth }) {
  const compiled = await WebAssembly.compile(module), station = new Station(compiled, depth), layers = new Map();
  opened = { compiled, station, layers, drawing: new Drawing(station, layers, post, compiled), telling: new Telling(station, depth) };
  return {};
}

const LOOKING = new Set(["plot", "redraw"]);

/**
 * One line of a script.
 * @param {Board.Sent} given its bytes are those of a load
 * @returns {Board.Applied}
 */
function applied({ line, bytes: file }) {
  const { station, drawing, telling, layers } = here(), [command = "", name = "", kind = ""] = line.split(/[ \t]+/).filter((word) => word);
  if (LOOKING.has(command)) drawing.useScripted();
  const code = station.apply(text.encode(line), file ?? null);
  const reply = words.decode(station.reply).trimEnd(), items = Number(reply.split(" ")[1]);
  const isPut = code === 0 && (command === "plot" || command === "write");
  if (code === 0 && command === "window") drawing.windowed(line);
  if (code === 0) telling.heard(line, file, items);
  if (code === 0 && command === "load") layers.set(name, { kind, items });
  return { code, reply, bytes: isPut ? station.file : null };
}

const pause = () => new Promise((done) => setTimeout(done));

// The lines of a gesture, one after another until one is refused; of a group all or none, with the answers to those
// around it.
/** @param {Board.Asked["lines"]} message @returns {Promise<Worker.Over<Board.Lines>>} */
async function lines({ lines: given, isGroup }) {
  const answers = isGroup ? [applied({ line: "begin" })] : [];
  let since = performance.now();
  isApplying = true;
  isStopping = false;
  try {
    for (const line of given) {
      if (isGroup && performance.now() - since > SLICE_MS) {
        await pause();
        since = performance.now();
      }
      if (isStopping) break;
      const answer = applied(line);
      answers.push(answer);
      if (answer.code) break;
    }
    const isWhole = answers.length === given.length + (isGroup ? 1 : 0) && !answers.some(({ code }) => code);
    if (isGroup) answers.push(applied({ line: isWhole ? "end" : "abort" }));
    here().drawing.refresh();
    return { answers, isStopped: isStopping && !isWhole && isGroup,
      over: answers.flatMap(({ bytes }) => bytes ? [bytes.buffer] : []) };
  } finally {
    isApplying = false;
    goOn();
  }
}

// What is asked in words. A file that can't be read for that is no fault of the station, which goes on.
/** @template T @param {(telling: Telling) => T | null} ask @returns {Board.Answer<T>} */
function told(ask) {
  try {
    return { found: ask(here().telling), why: null };
  } catch (fault) {
    if (fault instanceof WebAssembly.RuntimeError) throw fault;
    return { found: null, why: faultWords(fault) };
  }
}

// A comparison whose pictures go over to the page.
/** @template {Board.Sheets | Board.Differing} T @param {T} found @returns {Worker.Over<T>} */
function withSheets(found) {
  goOn();
  return { ...found, over: ("sheets" in found && found.sheets || []).flatMap((sheet) => sheet.bitmaps) };
}

/** @param {Worker.StationAsked["shapes"]} message @returns {Worker.Over<Worker.StationAnswered["shapes"]>} */
function shapesOf(message) {
  const { compiled, station } = here(), found = shapes(compiled, station, message);
  return { shapes: found, over: found.flatMap(({ bitmap }) => bitmap ?? []) };
}

// All items of a layer in their words, its box, and those of layers.
/** @param {Board.Asked["whole"]} message @returns {Board.Answered["whole"]} */
function wholeOf({ name, names }) {
  const { station } = here(), box = (/** @type {string} */ one) => lineOf(station, `box ${one}`);
  return { items: [...itemsOf(station, name)], own: box(name), boxes: names.map(box) };
}

// The side of the board as it will be made, in another window than the view's.
/** @param {Worker.StationAsked["board"]} message @returns {Promise<Worker.Over<Worker.StationAnswered["board"]>>} */
async function boardOf({ made, line }) {
  const { drawing } = here(), { png, lacks } = await drawing.side.fileIn(made, line);
  drawing.refresh();
  goOn();
  return { png, lacks, over: png ? [png.buffer] : [] };
}

/** @param {Board.Asked["pictures"]} message @returns {Worker.Over<Board.Answered["pictures"]>} */
function picturesOf({ names, line }) {
  const { drawing } = here(), pictures = drawing.filesIn(names, line);
  drawing.refresh();
  goOn();
  return { pictures, over: (pictures ?? []).map((bytes) => bytes.buffer) };
}

/** @param {Board.Asked["picture"]} message */
function keep({ name, picture, line: window }) {
  const { drawing } = here();
  drawing.keep(name, picture && window !== undefined ? new Opened(picture, window) : null);
  drawing.refresh();
  goOn();
  return {};
}

// Draws what `change` makes of the view.
/** @param {(drawing: Drawing) => void} change */
function redrawn(change) {
  change(here().drawing);
  goOn();
  return {};
}

function stop() {
  isStopping = true;
  return {};
}

/** @param {Board.Asked["compareTwo"]} message */
function comparedTwo(message) {
  const found = compareTwo(here().drawing, message);
  goOn();
  return found;
}

/**
 * @param {Worker.ToStation} message
 * @returns {Worker.Over<Worker.StationAnswered[keyof Worker.StationAnswered]> | Promise<Worker.Over<Worker.StationAnswered[keyof Worker.StationAnswered]>>}
 */
function answered(message) {
  switch (message.kind) {
    case "open": return open(message);
    case "lines": return lines(message);
    case "look": return look(here().station, message);
    case "under": return under(here().station, message);
    case "pile": return pileAt(here().station, message);
    case "near": return near(here().station, message);
    case "tally": return tally(here().station, message);
    case "shapes": return shapesOf(message);
    case "gap": return gap(here().compiled, here().station, message);
    case "inside": return inside(here().station, message);
    case "touched": return touched(here().station, message);
    case "like": return like(here().station, message);
    case "boxes": return { boxes: message.names.map((name) => lineOf(here().station, `box ${name}`)) };
    case "whole": return wholeOf(message);
    case "board": return boardOf(message);
    case "stop": return stop();
    case "view": return redrawn((drawing) => drawing.show(message.view));
    case "halt": return redrawn((drawing) => drawing.halt());
    case "compare": return withSheets(compare(here().drawing, message));
    case "compareView": return withSheets(compareView(here().drawing, message));
    case "compareTwoView": return withSheets(compareTwoView(here().drawing, message));
    case "compareTwo": return comparedTwo(message);
    case "picture": return keep(message);
    case "pictures": return picturesOf(message);
    case "words": return told((telling) => telling.words(message));
    case "at": return told((telling) => telling.at(message));
    case "find": return told((telling) => telling.find(message));
    case "shared": return told((telling) => telling.shared(message));
    case "lit": return told((telling) => telling.lit(message));
    case "about": return told((telling) => telling.about(message));
    case "dropped": return droppedOf(message);
    case "withAttributes": return withAttributes(here().compiled, message);
    case "memory": return { bytes: here().station.memory };
    default: return unknown(message);
  }
}

self.onmessage = async (/** @type {MessageEvent<Worker.ToStation>} */ { data }) => {
  const of = "call" in data ? { call: data.call } : { number: data.number };
  try {
    const { over = [], ...answer } = await answered(data);
    post({ ...of, answer }, over);
  } catch (fault) {
    post({ ...of, fault: faultWords(fault) });
  }
};

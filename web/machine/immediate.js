// Events that ask nothing of the station: how layers look, the tool and what is drawn by it, what is asked and answered.

import { Making, drawingTools } from "./drawing_tools.js";
import { BLANK, change, conclude } from "./opening.js";
import { askAbout, askWhenTried, askedFiles } from "./asking.js";
import { joined } from "../board/index.js";
import { whyNoTool } from "./drawn_into.js";
import { withMoved, withShown } from "./functions.js";
import { layerOf, openingOf, shownLayers } from "./state.js";

/** @param {Machine.Turn} turn @param {string | null} name @param {Partial<Machine.Layer>} changes */
const layerLook = (turn, name, changes) =>
  turn.set({ layers: turn.state.layers.map((layer) => name === null || layer.name === name ? { ...layer, ...changes } : layer) });

/** @param {Machine.Turn} turn @param {string} name @param {Partial<Machine.Picture>} changes */
const pictureLook = (turn, name, changes) =>
  turn.set({ opened: turn.state.opened.map((picture) => picture.name === name ? { ...picture, ...changes } : picture) });

// One layer alone, or again those that were shown before.
/** @param {Machine.Turn} turn @param {Machine.Immediate["only"]} event */
function only(turn, { name }) {
  const { layers, shownBefore } = turn.state, isAlone = layers.every((layer) => layer.isShown === (layer.name === name));
  if (!isAlone) turn.set({ shownBefore: new Set(shownLayers(turn.state).map((layer) => layer.name)) });
  turn.set({ layers: layers.map((layer) => ({ ...layer,
    isShown: isAlone ? shownBefore?.has(layer.name) ?? true : layer.name === name })) });
}

// The tool of a state, with the settings of new items.
/** @param {Machine.State} state */
export const makingOf = ({ tool, making, entry, polarity, turn, direction, grid }) => drawingTools[tool]
  ? new Making(tool, { entry: entry ?? 0, polarity, turn, direction, grid }, making ?? {}) : null;

// What a point, or the end where `last` is null, made of what was being drawn. Another layer may be the active one when the
// turn of the insertion comes, with other apertures: then its words are made again.
/** @param {Machine.Turn} turn @param {Making} made @param {string | null} words @param {Machine.Again["last"]} last */
function hold(turn, made, words, last) {
  const { making, tool, active } = turn.state;
  turn.set({ making: { points: made.points, centre: made.centre } });
  if (words) turn.last({ kind: "edit", verb: "insert", words, active, again: { tool, settings: made.settings, making, last } });
}

// (one that snapped to an item stays where it is, and goes to no grid)
/** @param {Machine.Turn} turn @param {Machine.Immediate["point"]} event */
function point(turn, { x, y, isCentre, isSnapped }) {
  const made = makingOf(turn.state), at = { x, y, isSnapped };
  if (made) hold(turn, made, made.add(at, isCentre), { ...at, isCentre });
}

/** @param {Machine.Turn} turn */
function endMaking(turn) {
  const made = makingOf(turn.state);
  if (!made) return;
  const words = made.end();
  if (words) hold(turn, made, words, null);
  else if (made.points.length) turn.say("It has too few points.", true);
}

/** @param {Machine.Turn} turn @param {Machine.Immediate["tool"]} event */
function chooseTool(turn, { name }) {
  const why = whyNoTool(turn.state, name);
  if (why) return turn.say(why, true);
  turn.set({ tool: name, making: null });
  const hint = drawingTools[name]?.hint;
  if (hint) turn.say(hint);
  return undefined;
}

// First what is being drawn is let go, then what is lit, then the tool, then what is picked.
/** @param {Machine.Turn} turn */
function escape(turn) {
  const { comparison, lit, making, tables, tool, picked, work } = turn.state;
  if (work?.stage === "lines" && work.isGroup) return turn.send({ to: "worker", number: 0, kind: "stop" });
  if (comparison) return turn.set({ comparison: null });
  if (making?.points.length) return turn.set({ making: null });
  if (lit) return turn.set({ lit: null });
  if (tables.lit) return turn.set({ tables: { ...tables, lit: null } });
  if (tool !== "pick") return chooseTool(turn, { name: "pick" });
  if (picked.length) turn.last({ kind: "picks", places: [] });
  return undefined;
}

/** @param {Machine.Turn} turn */
function showPicked(turn) {
  const box = joined(turn.state.picked.map((item) => item.box));
  if (box) turn.send({ to: "page", kind: "fit", box, room: 0.3 });
}

// A layer that differs is shown, where it differs.
/** @param {Machine.Turn} turn @param {Machine.Immediate["lead"]} event */
function lead(turn, { name, box }) {
  if (layerOf(turn.state, name)) layerLook(turn, name, { isShown: true });
  if (box) turn.send({ to: "page", kind: "fit", box, room: 0.3 });
}

/** @param {Machine.Turn} turn @param {Machine.Immediate["tried"]} event */
function tried(turn, { refused, isAble, why = "", asks = [] }) {
  const entry = turn.state.refused.find(({ id }) => id === refused);
  if (!entry) return;
  const opening = openingOf(turn.state, entry.opening);
  const offer = isAble === null ? null : { isAble, why, asks }, now = { ...entry, isTried: true, offer, isPending: isAble === true };
  turn.set({ refused: turn.state.refused.map((other) => other === entry ? now : other) });
  if (opening) change(turn, entry.opening, { trying: opening.trying - 1 });
  askWhenTried(turn, entry.opening);
  turn.last({ kind: "keep" });
  conclude(turn, entry.opening);
}

// Asks about refused files that a person chose, but for those that are asked about, and those that are on their way as what they
// were converted to. When the others of their opening were tried, these are not asked about once more.
/** @param {Machine.Turn} turn @param {Machine.Refused[]} entries */
function offer(turn, entries) {
  const { queue, refused, work } = turn.state, asked = askedFiles(turn.state);
  const onWay = new Set([work?.gesture, ...queue].flatMap((gesture) => gesture?.kind === "load" ? [gesture.refused] : []));
  const others = entries.filter(({ id }) => !asked.has(id) && !onWay.has(id)), [first] = others;
  if (!first) return;
  turn.set({ refused: refused.map((entry) => others.includes(entry) ? { ...entry, isPending: false } : entry) });
  askAbout(turn, others, first.opening);
  turn.last({ kind: "keep" });
}

// Loads what refused files were converted to: [{ id, bytes }] by the numbers of the refused. All of it is kept before the first
// of them is loaded, so that the answer holds for all of them when the page is left meanwhile.
/** @param {Machine.Turn} turn @param {number | undefined} of @param {{ id: number, bytes: Uint8Array }[]} made */
function openConverted(turn, of, made) {
  const files = { ...turn.state.files }, { openings, refused } = turn.state, opening = of ?? turn.number();
  /** @type {Machine.GestureOf<"load">[]} */
  const loads = [];
  for (const { id, bytes } of made) {
    const entry = refused.find((other) => other.id === id), file = `given ${turn.number()}`;
    if (!entry) continue;
    files[file] = { name: entry.layer.fileName, bytes };
    loads.push({ kind: "load", opening, file, layer: entry.layer, refused: id });
  }
  if (!loads.length) return turn.last({ kind: "keep" });
  turn.set({ files, openings: openings[opening] ? openings : { ...openings, [opening]: { ...BLANK, isDone: true } } });
  return turn.first({ kind: "keep", files: loads.map(({ file }) => file) }, ...loads, { kind: "opened", opening });
}

// Another station plays the script once: where a page is opened whose first station did not start, it does so as that page.
/** @param {Machine.Turn} turn */
function replayFirst(turn) {
  const { queue } = turn.state, waits = queue.find(({ kind }) => kind === "replay");
  turn.set({ queue: [waits ?? { kind: "replay", isAgain: true }, ...queue.filter((gesture) => gesture !== waits)] });
}

// What the answer to a question that no gesture waits for brings about.
/** @type {{ [K in keyof Machine.Questions]?: (turn: Machine.Turn, question: Machine.QuestionOf<K>, reply: Machine.Replied) => unknown }} */
const answers = {
  convert: (turn, { refused, opening }, { value, bytes }) =>
    openConverted(turn, opening, value === "yes" && bytes ? [{ id: refused, bytes }] : []),
  convertAll: (turn, { refused, opening }, { value, made = [] }) =>
    openConverted(turn, opening, value === "yes" ? made.filter(({ id }) => refused.includes(id)) : []),
  plot(turn, question, { value, names, pitch, form, why }) {
    if (value !== "yes") return;
    if (why) turn.say(why, true);
    else if (names && pitch !== undefined && form !== undefined) turn.last({ kind: "plot", names, pitch, form });
  },
  array(turn, { of }, { value, columns, rows, dx, dy }) {
    if (value === "yes") turn.last({ kind: "edit", verb: "array", columns: columns ?? NaN, rows: rows ?? NaN, dx: dx ?? NaN, dy: dy ?? NaN, of });
  },
  go(turn, question, { value, place }) {
    if (value === "link") turn.send({ to: "page", kind: "copy link" });
    else if (value === "yes" && place) turn.send({ to: "page", kind: "go", place });
  },
  give(turn, question, { value, form, pitch, why }) {
    if (value !== "yes") return;
    if (why) turn.say(why, true);
    else if (form !== undefined && pitch !== undefined) turn.last({ kind: "give", form, pitch });
  },
  anew(turn, question, { value }) {
    if (value !== "yes") return;
    turn.set({ isLeaving: true });
    turn.send({ to: "page", kind: "anew" });
  },
};

/** @type {Machine.Handlers<Machine.Immediate>} */
const events = {
  started: (turn) => turn.set({ station: { isOpen: true, why: null } }),
  show: (turn, { name, isShown }) => layerLook(turn, name, { isShown }),
  toggle: (turn) => {
    const layer = layerOf(turn.state, turn.state.active);
    if (layer) layerLook(turn, layer.name, { isShown: !layer.isShown });
  },
  only,
  layer: (turn, { name, changes }) => layerLook(turn, name, changes),
  // Where a line can say what a layer shows, it does.
  function: (turn, { name, shows }) => {
    if (layerOf(turn.state, name)?.kind === "gerber") turn.last({ kind: "edit", verb: "function", name, shows });
    else turn.set({ layers: withShown(turn.state.layers, name, shows) });
  },
  raise: (turn, { name, by }) => turn.set({ layers: withMoved(turn.state.layers, name, by) }),
  picture: (turn, { name, changes }) => pictureLook(turn, name, changes),
  close: (turn, { name }) => {
    turn.set({ opened: turn.state.opened.filter((picture) => picture.name !== name) });
    turn.send({ to: "worker", number: 0, kind: "picture", name, picture: null });
    turn.last({ kind: "keep" });
  },
  setting: (turn, { changes }) => turn.set(changes),
  tool: chooseTool,
  point,
  endMaking,
  escape,
  showPicked,
  lead,
  leave: (turn) => turn.set({ comparison: null }),
  say: (turn, { text, isFault }) => turn.say(text, isFault),
  ask: (turn, { question }) => turn.question(question),
  offer: (turn, { refused }) => {
    const entry = turn.state.refused.find(({ id }) => id === refused);
    if (entry?.offer) offer(turn, [entry]);
  },
  offerAll: (turn, { refused }) => offer(turn, turn.state.refused.filter((entry) => refused.includes(entry.id) && entry.offer)),
  tried,
  lost: (turn, { why, isOpen = turn.state.kept.isOpen }) =>
    turn.set({ kept: { ...turn.state.kept, why, isOpen, isLost: true } }),
  keepAgain: (turn) => {
    const { kept } = turn.state;
    if (kept.isOpen) turn.last(kept.isLost ? { kind: "keep", isAnew: true } : { kind: "keep" });
  },
  restarted: (turn) => {
    turn.set({ station: { isOpen: true, why: null }, faults: [] });
    replayFirst(turn);
    for (const { name, file, window } of turn.state.opened) {
      if (turn.state.files[file]) turn.send({ to: "page", kind: "put picture", name, file, window });
    }
  },
  fault: (turn, { why }) => turn.set({ faults: [...turn.state.faults.slice(-4), why] }),
  dismiss: (turn) => turn.set({ faults: [], spoiled: [] }),
  stop: (turn) => turn.send({ to: "worker", number: 0, kind: "stop" }),
};

export const immediate = {
  events,
  /** @type {(turn: Machine.Turn, question: Machine.Question, reply: Machine.Replied) => unknown} */
  replied: (turn, question, reply) => {
    const take = /** @type {(turn: Machine.Turn, question: Machine.Question, reply: Machine.Replied) => unknown} */ (answers[question.kind]);
    return take?.(turn, question, reply);
  },
};

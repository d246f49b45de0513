// A layer, or the whole board, is closed. No line of the station unloads: what is left of the script is played in another
// station. So the script makes what the page shows, and an undo takes back what it did.

import { NO_STEPS, after, isGhost, isPlayed } from "./replay.js";
import { DEPTH, layerOf } from "./state.js";
import { Steps, firstWord, wordsOf } from "./steps.js";
import { filesNeeded, keepAnew } from "./keeping.js";
import { named } from "./named.js";
import { plural } from "../board/index.js";

const OF_LAYERS = new Set(["load", "plot", "write", "list", "insert", "delete", "move", "reorder", "aperture", "polarity", "tool",
  "diameter", "setattr", "dropattr"]);

/** @param {string} line @param {string} name */
const isOf = (line, name) => OF_LAYERS.has(firstWord(line)) && wordsOf(line)[1] === name;

/** @param {Machine.Told | undefined} before @param {Machine.Told} entry */
const isEmptyGroup = (before, { line }) => before && firstWord(before.line) === "begin" && isPlayed(before)
  && ["end", "abort"].includes(firstWord(line));

// The script without the lines of a layer, and without the undos and redos of steps that had no others.
/** @param {Machine.Told[]} told @param {string} name */
export function without(told, name) {
  /** @type {Machine.Told[]} */
  const left = [];
  let steps = NO_STEPS;
  for (const entry of told) {
    if (!isPlayed(entry)) {
      if (!isOf(entry.line, name)) left.push(entry);
      continue;
    }
    const isGone = isOf(entry.line, name) || isGhost(steps, entry.line);
    steps = after(steps, entry, !isGone);
    if (isGone) continue;
    if (isEmptyGroup(left.at(-1), entry)) left.pop();
    else left.push(entry);
  }
  return left;
}

// Goes on with another script in another station.
/** @param {Machine.Turn} turn @param {Machine.Told[]} told @param {Partial<Machine.State>} changes */
function goOn(turn, told, changes) {
  const { state } = turn;
  turn.set({ ...changes, told, paths: named(), comparison: null, click: null, station: { isOpen: false, why: null } });
  turn.set({ files: filesNeeded(turn.state) });
  turn.send({ to: "page", kind: "start" });
  const { isOpen, isLost } = state.kept;
  if (!isOpen || isLost) return turn.finish({ isWell: true });
  keepAnew(turn);
  return turn.work({ stage: "kept" });
}

/** @param {Machine.Turn} turn */
const inGroup = (turn) => {
  turn.say("A group is open: end it first.", true);
  return turn.finish();
};

/** @param {Machine.Turn} turn @param {Machine.Layer} layer */
function closeLayer(turn, { name, label }) {
  const { state } = turn;
  turn.say(`${label} is closed.`);
  return goOn(turn, without(state.told, name), { layers: state.layers.filter((layer) => layer.name !== name),
    picked: state.picked.filter((pick) => pick.name !== name), active: state.active === name ? null : state.active, lit: null });
}

/** @type {Machine.Kind<"close">} */
export const close = {
  begin(turn, { name, id }) {
    const { steps, saved } = turn.state, layer = layerOf(turn.state, name), unsaved = steps.unsaved(saved, name);
    if (!layer) return turn.finish();
    if (steps.group) return inGroup(turn);
    if (!unsaved) return closeLayer(turn, layer);
    turn.work({ stage: "asking" });
    return turn.question({ kind: "close", label: layer.label, unsaved, gesture: id });
  },
  heard: {
    asking(turn, { name }, { value }) {
      const layer = layerOf(turn.state, name);
      return value === "yes" && layer ? closeLayer(turn, layer) : turn.finish();
    },
  },
};

/** @param {Machine.Turn} turn */
function closeBoard(turn) {
  const { state } = turn, count = state.layers.length;
  for (const [id, { opened, refused, others }] of Object.entries(state.openings)) {
    turn.send({ to: "page", kind: "opened", opening: Number(id), result: { opened, refused, others } });
  }
  turn.say(`The board is closed: ${plural(count, "layer")}.`);
  turn.send({ to: "page", kind: "board closed" });
  return goOn(turn, [], { layers: [], picked: [], active: null, entry: null, entries: named(), attributes: named(), steps: new Steps(DEPTH),
    saved: named(), unsaved: 0, hasWindow: false, opened: [], windows: [], refused: [], openings: {}, dropped: {}, spoiled: [],
    questions: [], shownBefore: null, inWords: null, lit: null, job: null, checks: { ...state.checks, accepted: [] },
    queue: state.queue.filter(({ kind }) => !["load", "opened", "picture"].includes(kind)) });
}

/** @type {Machine.Kind<"closeAll">} */
export const closeAll = {
  begin(turn, { id }) {
    const { unsaved, layers } = turn.state;
    if (!unsaved) return closeBoard(turn);
    turn.work({ stage: "asking" });
    return turn.question({ kind: "closeAll", unsaved, count: layers.length, gesture: id });
  },
  heard: { asking: (turn, gesture, { value }) => value === "yes" ? closeBoard(turn) : turn.finish() },
};

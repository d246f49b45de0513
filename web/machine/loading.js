// Loads: each file of an opening when its turn comes, under a name and a path that nothing has then.

import { change, conclude, lookOf } from "./opening.js";
import { askWhenTried } from "./asking.js";
import { leaveClosed } from "./keeping.js";
import { readLater } from "./attributes.js";
import { boxOf, boxOfWindow, joined } from "../board/index.js";
import { firstWord } from "./steps.js";
import { PLAIN, bytesOf, openingOf } from "./state.js";
import { lookOnly, settle } from "./settling.js";
import { boxNames, showIfNone } from "./seeking.js";
import { nameFor, pathFor } from "./names.js";
import { readPbm } from "../bytes/index.js";

// A load empties what can be undone.
/** @param {Machine.State} state */
export const losesSteps = ({ steps }) => steps.done.length > 0 || steps.undone.length > 0;

/** @param {Machine.Turn<"load">} turn @param {Machine.GestureOf<"load">} gesture */
function send(turn, gesture) {
  const { state } = turn, opening = openingOf(state, gesture.opening), isGiven = "given" in gesture;
  if (opening && opening.wasEmpty === null) change(turn, gesture.opening, { wasEmpty: state.layers.length === 0 });
  const name = isGiven ? gesture.given.name : nameFor(state, gesture.layer.wanted);
  const path = pathFor(state, isGiven ? gesture.given.path : gesture.layer.fileName);
  const look = isGiven ? {} : lookOf(gesture.layer, name, state.layers), line = `load ${name} ${gesture.layer.kind} ${path}`;
  turn.apply({ stage: "lines", isGroup: false, line, name, path, look }, [{ line, bytes: bytesOf(state.files, gesture.file) }]);
}

/** @type {Machine.Kind<"load">} */
export const load = {
  begin(turn, gesture) {
    const isAllowed = openingOf(turn.state, gesture.opening)?.isAllowed === true;
    if (!losesSteps(turn.state) || "given" in gesture || isAllowed) return send(turn, gesture);
    turn.work({ stage: "asking" });
    const { done, undone } = turn.state.steps;
    return turn.question({ kind: "history", opening: gesture.opening, steps: done.length + undone.length, gesture: gesture.id });
  },
  heard: {
    asking(turn, gesture, { value }) {
      if (value === "yes") {
        change(turn, gesture.opening, { isAllowed: true });
        return send(turn, gesture);
      }
      /** @param {Machine.Gesture} other */
      const isOf = (other) => other.kind === "load" && other.opening === gesture.opening;
      change(turn, gesture.opening, { leftClosed: 1 + turn.state.queue.filter(isOf).length });
      turn.set({ queue: turn.state.queue.filter((other) => !isOf(other)) });
      turn.finish();
      return leaveClosed(turn);
    },
    lines(turn, gesture, { answers: [answer] }, { line, name, path, look }) {
      if (!answer) return turn.finish();
      const { code, reply } = answer, { file, refused } = gesture, entry = { line, reply }, isWell = code === 0;
      if (code) refuse(turn, gesture, reply);
      // What became of it is kept together with the line.
      if (refused) {
        if (code) note(turn, refused, `What it was converted to is refused too: ${reply}.`);
        else converted(turn, refused, gesture.opening);
      }
      return settle(turn, [code ? entry : { ...entry, path, file, layer: look }],
        { isWaiting: true, result: { isWell, answers: [{ code, reply }] }, left: { name, isWell } });
    },
  },
  end(turn, gesture, { name, isWell }) {
    const opening = openingOf(turn.state, gesture.opening);
    if (isWell && opening) change(turn, gesture.opening, { opened: [...opening.opened, name] });
  },
};

// The reasons that no conversion of a file changes: too many layers are open, or it is too much for the station.
const HOPELESS = /^refused (?:25|85)\b/;

// A file that came with its name and path, as one that was recognised: what it is converted to goes by these.
/** @param {Extract<Machine.GestureOf<"load">, { given: unknown }>} gesture @returns {Machine.Recognised} */
const asGiven = ({ layer: { kind }, given: { name, path } }) =>
  ({ kind, wanted: name, label: name, colour: PLAIN.colour, height: PLAIN.height, isShown: PLAIN.isShown, fileName: path, origin: path });

// A file that is refused stands in the list of those; whether it can be converted is tried.
/** @param {Machine.Turn} turn @param {Machine.GestureOf<"load">} gesture @param {string} reply */
function refuse(turn, gesture, reply) {
  if (gesture.refused) return;
  const { file, opening } = gesture, layer = "given" in gesture ? asGiven(gesture) : gesture.layer;
  const id = turn.number(), before = openingOf(turn.state, opening), isTried = HOPELESS.test(reply);
  turn.set({ refused: [...turn.state.refused, { id, file, layer, reply, opening, isTried, offer: null, note: "" }] });
  if (before) {
    change(turn, opening, { refused: [...before.refused, { id, name: layer.fileName, reply }], trying: before.trying + (isTried ? 0 : 1) });
  }
  if (!isTried) turn.send({ to: "page", kind: "try", refused: id });
}

/** @param {Machine.Turn} turn @param {number} id @param {string} words */
const note = (turn, id, words) =>
  turn.set({ refused: turn.state.refused.map((entry) => entry.id === id ? { ...entry, note: words } : entry) });

// A file that was being opened when the station ended, whose answer did not come. The next station opens it where nothing but a
// question was under way, or a person wanted that station; else the file may be why it ended, so it is left closed, and told.
/** @param {Machine.Turn} turn @param {Machine.Work} work @param {string | null} why */
export function breakOff(turn, { gesture, stage }, why) {
  if (gesture.kind !== "load" && gesture.kind !== "picture" || ["settling", "kept"].includes(stage)) return;
  if (why === null || stage === "asking") return turn.first(gesture);
  const label = gesture.kind === "picture" ? gesture.label : "given" in gesture ? gesture.given.path : gesture.layer.fileName;
  const words = `${label} was not opened: the station stopped (${why}).`, before = openingOf(turn.state, gesture.opening);
  if (before) change(turn, gesture.opening, { faults: [...before.faults, words] });
  else turn.say(words, true);
  leaveClosed(turn);
}

// What was converted and is open stands no longer as refused.
/** @param {Machine.Turn} turn @param {number} id @param {number | undefined} opening */
function converted(turn, id, opening) {
  turn.set({ refused: turn.state.refused.filter((entry) => entry.id !== id) });
  const before = openingOf(turn.state, opening);
  if (before) change(turn, opening, { refused: before.refused.filter((entry) => entry.id !== id), converted: before.converted + 1 });
}

// All of an opening is loaded: a board that was empty is shown whole.
/** @type {Machine.Kind<"opened">} */
export const opened = {
  begin(turn, gesture) {
    const opening = openingOf(turn.state, gesture.opening);
    if (!opening) return turn.finish();
    const { opened: names, wasEmpty } = opening, last = names.at(-1);
    if (last !== undefined) showIfNone(turn, names);
    if (last === undefined || !wasEmpty) return turn.finish();
    return lookOnly(turn, turn.state.picked, { active: names.includes("top") ? "top" : last }, null);
  },
  end(turn) {
    const names = boxNames(turn.state.layers);
    turn.ask({ stage: "boxes" }, { kind: "boxes", names });
    return "more";
  },
  heard: {
    boxes(turn, gesture, { boxes }) {
      const box = joined(boxes.map(boxOf));
      if (box) turn.send({ to: "page", kind: "fit", box });
      turn.finish();
    },
  },
  finished(turn, gesture) {
    change(turn, gesture.opening, { isDone: true });
    askWhenTried(turn, gesture.opening);
    conclude(turn, gesture.opening);
    turn.last({ kind: "seek" });
    readLater(turn);
  },
};

const INKS = ["#f08cd0", "#8ce0a0", "#e0c08c", "#8cb4f0"];

/** @param {string} line */
const sidesOf = (line) => line.trim().split(/\s+/).slice(4, 6).map(Number);

// The latest window of these sides that the page knows of; null where there is none.
/** @param {Machine.State} state @param {import("../bytes/index.js").Picture} picture */
function windowFor({ told, windows, opened: pictures }, { width, height }) {
  const scripted = told.filter(({ line, reply }) => firstWord(line) === "window" && reply === "ok").map(({ line }) => line);
  return [...windows, ...pictures.map(({ window }) => window), ...scripted].reverse()
    .find((line) => sidesOf(line)[0] === width && sidesOf(line)[1] === height) ?? null;
}

/** @param {Machine.Turn<"picture">} turn @param {Machine.BitPicture} made @param {string} window */
function put(turn, made, window) {
  const name = `picture ${turn.number()}`;
  turn.ask({ stage: "put", name, window }, { kind: "picture", name, picture: made, line: window });
}

/** @param {Machine.Turn} turn @param {Machine.GestureOf<"picture">} gesture @param {string} why */
function fault(turn, { opening, label }, why) {
  const before = openingOf(turn.state, opening);
  if (before) change(turn, opening, { faults: [...before.faults, `${label}: ${why}.`] });
  else turn.say(`${label}: ${why}.`, true);
  turn.finish();
  leaveClosed(turn);
}

// A picture beside the layers; one that is of a layer is not shown at once, but proposed for a comparison with it.
/** @type {Machine.Kind<"picture">} */
export const picture = {
  begin(turn, gesture) {
    let made = null;
    try {
      made = readPbm(bytesOf(turn.state.files, gesture.file) ?? new Uint8Array());
    } catch (thrown) {
      return fault(turn, gesture, thrown instanceof Error ? thrown.message : String(thrown));
    }
    const window = gesture.window ?? windowFor(turn.state, made);
    if (window) return put(turn, made, window);
    return turn.ask({ stage: "boxes", picture: made }, { kind: "boxes", names: boxNames(turn.state.layers) });
  },
  heard: {
    boxes(turn, { label, opening, id }, { boxes }, { picture: made }) {
      const { width, height } = made, box = joined(boxes.map(boxOf)) ?? { left: 0, low: 0, right: 25400 * width, high: 25400 * height };
      turn.work({ stage: "asking", picture: made });
      return turn.question({ kind: "place", label, width, height, box, opening, gesture: id });
    },
    asking(turn, gesture, { value, window, why }, { picture: made }) {
      if (value === "yes" && window) return put(turn, made, window);
      return fault(turn, gesture, value === "yes" ? why ?? "it has no place" : "left out");
    },
    put(turn, gesture, _, { name, window }) {
      const { label, file, of, isShown = of === null, opacity = 0.85, isInside = false } = gesture;
      const { layers, opened: others } = turn.state, { colour = INKS[others.length % INKS.length] ?? PLAIN.colour } = gesture;
      if (!layers.length && !others.length) turn.send({ to: "page", kind: "fit", box: boxOfWindow(window) });
      turn.set({ opened: [...others, { name, label, of, window, file, isInside, isOpened: true, isShown, opacity, colour }] });
      const before = openingOf(turn.state, gesture.opening);
      if (before) change(turn, gesture.opening, { pictures: before.pictures + 1 });
      turn.finish();
      return isInside ? undefined : turn.first({ kind: "keep" });
    },
  },
};

// The gestures that change the station or ask it, each by how it begins, what it does with each answer that it hears, and how it
// ends once its lines are settled. One is under way at a time.

import { dropped, readLater } from "./attributes.js";
import { firstWord, isEdit, wordsOf } from "./steps.js";
import { keep, keepAnew } from "./keeping.js";
import { bytesOf, layerOf } from "./state.js";
import { close, closeAll } from "./closing.js";
import { applied, entriesOf, grouped } from "./grouped.js";
import { copiedOf } from "./copied.js";
import { linesOf } from "./edits.js";
import { gap, pickListed, pile } from "./lying.js";
import { give } from "./giving.js";
import { load, losesSteps, opened, picture } from "./loading.js";
import { lookOnly, settle } from "./settling.js";
import { pickAt, pickIn, picks } from "./picking.js";
import { pickLike } from "./picking_like.js";
import { compare, compareTwo, compareView, fit, plot, save, script } from "./showing.js";
import { tally } from "./tables.js";
import { light, pickShared } from "./telling.js";
import { replay } from "./replaying.js";
import { seek } from "./seeking.js";
import { tellRefused } from "./refused.js";
import { whole } from "./whole_layer.js";

/** @type {Machine.Kind<"edit">} */
const edit = {
  begin(turn, gesture) {
    const made = linesOf(turn.state, gesture);
    if ("why" in made) {
      turn.say(made.why, true);
      return turn.finish();
    }
    const { lines, places = null, changes = null } = made;
    if (!lines.length) return turn.finish();
    const isGroup = lines.length > 1 && !turn.state.steps.group;
    return turn.apply({ stage: "lines", isGroup, lines, places, changes }, lines.map((line) => ({ line })));
  },
  heard: { lines: (turn, gesture, answer, at) => applied(turn, answer, at, (entries, then) => settle(turn, entries, { ...then, left: null })) },
};

// Lines as they are: one that was typed, or several of a caller, which are a group where all are edits.
/** @type {Machine.Kind<"lines">} */
const lines = {
  begin(turn, gesture) {
    const { state } = turn, given = gesture.lines, [word = "", , , path = ""] = wordsOf(given[0] ?? "");
    if (word === "load" && losesSteps(state) && !gesture.isAllowed) {
      turn.work({ stage: "asking" });
      return turn.question({ kind: "history", steps: state.steps.done.length + state.steps.undone.length, gesture: gesture.id });
    }
    const isGroup = given.length > 1 && given.every(isEdit) && !state.steps.group;
    // A plot shows the window of the script; where it has none yet, what is seen becomes it.
    const seen = !state.hasWindow && ["plot", "redraw"].includes(word) && gesture.window ? [gesture.window] : [];
    const file = word === "load" ? state.paths[path] : undefined, load = file === undefined ? null : { path, file };
    const all = [...seen, ...given], bytes = bytesOf(state.files, file);
    return turn.apply({ stage: "lines", isGroup, lines: all, isBlind: seen.length > 0, load }, all.map((line) => ({ line, bytes })));
  },
  heard: {
    asking(turn, gesture, { value }) {
      if (value === "yes") return lines.begin(turn, { ...gesture, isAllowed: true });
      turn.say("The layer was left closed.");
      return turn.finish({ isWell: false, answers: [] });
      },
      lines(turn, { isGiven = false }, { answers, isStopped }, { lines: all, isGroup, isBlind, load: of }) {
        if (isStopped) {
          turn.say("Stopped: nothing of it was done.");
          return turn.finish({ isWell: false, answers: [] });
        }
        const isRefused = tellRefused(turn, answers), made = isGroup ? grouped(all, answers, isRefused) : all;
        if (!isRefused) turn.say("");
        const result = { isWell: !isRefused, answers: isGroup ? answers.slice(1, -1) : answers.slice(isBlind ? 1 : 0) };
        return settle(turn, entriesOf(made, answers, (line) => of && firstWord(line) === "load" ? of : {}), { isWaiting: isGiven, result, left: null });
      },
  },
  finished: (turn) => readLater(turn),
};

// Writes what is to be kept besides lines, once more where that could not be done before.
/** @type {Machine.Kind<"keep">} */
const keeping = {
  begin(turn, { files = [], isAnew = false }) {
    if (isAnew) {
      keepAnew(turn);
      return turn.work({ stage: "kept" });
    }
    if (!keep(turn, { files, isWaiting: true })) return turn.finish();
    return turn.work({ stage: "kept" });
  },
};

// The words of what is picked, to be pasted.
/** @type {Machine.Kind<"copy">} */
const copy = {
  begin(turn) {
    const copied = copiedOf(turn.state);
    turn.set({ copied });
    turn.send({ to: "page", kind: "copy", text: copied.map(({ words }) => words).join("\n") });
    turn.say(copied.length ? `${copied.length} copied.` : "Nothing is picked to copy.");
    turn.finish();
  },
};

// Another layer is the one that insertions go to.
/** @type {Machine.Kind<"choose">} */
const choose = {
  begin(turn, { name }) {
    if (!layerOf(turn.state, name)) return turn.finish();
    return lookOnly(turn, turn.state.picked, { active: name }, null);
  },
};

// Another part of the active layer's items is listed.
/** @type {Machine.Kind<"list">} */
const list = {
  begin(turn, { from = turn.state.list.from, isOpen = turn.state.list.isOpen, by = 0 }) {
    const layer = layerOf(turn.state, turn.state.active), count = layer?.items ?? 0;
    const first = Math.max(0, Math.min(from + by, count - 1));
    return lookOnly(turn, turn.state.picked, { list: { ...turn.state.list, isOpen, from: first - first % 100 } }, null);
  },
};

/** @type {Machine.Kinds} */
export const kinds = { choose, close, closeAll, compare, compareTwo, compareView, copy, dropped, edit, fit, gap, give, keep: keeping, light, lines,
  list, load, opened, pickAt, pickIn, pickLike, pickListed, pickShared, picks, picture, pile, plot, replay, save, script, seek, tally,
  whole };

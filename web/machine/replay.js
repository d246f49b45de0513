// Playing the lines that were kept: those that were accepted, in their order, but those that only look. A line that the
// station refuses now is left out, and so is an undo of it, which would take back another step.

import { firstWord } from "./steps.js";

const LOOKING = new Set(["plot", "write", "redraw", "list"]);

// All lines but edits: one that was accepted and that nobody knows any more was an edit.
const OTHERS = new Set([...LOOKING, "load", "window", "begin", "end", "abort", "undo", "redo"]);

/** @param {Machine.Told} entry */
export const isPlayed = ({ line, reply }) => reply.startsWith("ok") && !LOOKING.has(firstWord(line));

// Of each step that was done, and of each undone, whether the station has it; and of an open group whether it has edits,
// and whether the station has one of them.
/** @type {Machine.Real} */
export const NO_STEPS = { done: [], undone: [], group: null };

/** @param {Machine.Real} steps @param {Machine.Told} entry @param {boolean} isReal @returns {Machine.Real} */
export function after({ done, undone, group }, { line }, isReal) {
  const word = firstWord(line);
  if (!OTHERS.has(word)) {
    return group ? { done, undone, group: { isAny: true, isReal: group.isReal || isReal } }
      : { done: [...done, isReal], undone: [], group };
  }
  switch (word) {
    case "begin": return { done, undone, group: { isAny: false, isReal: false } };
    case "end": return group?.isAny ? { done: [...done, group.isReal], undone: [], group: null } : { done, undone, group: null };
    case "abort": return { done, undone, group: null };
    case "undo": return { done: done.slice(0, -1), undone: [...undone, ...done.slice(-1)], group };
    case "redo": return { done: [...done, ...undone.slice(-1)], undone: undone.slice(0, -1), group };
    case "load": return NO_STEPS;
    default: return { done, undone, group };
  }
}

/** @param {Machine.Real} steps @param {string} line */
export function isGhost({ done, undone }, line) {
  const word = firstWord(line);
  return word === "undo" && done.at(-1) === false || word === "redo" && undone.at(-1) === false;
}

// Which of the entries are sent next, where all of them are accepted.
/** @param {Machine.Told[]} entries @param {Machine.Real} steps */
export function plan(entries, steps) {
  let now = steps;
  return entries.map((entry) => {
    if (!isPlayed(entry)) return false;
    const isSent = !isGhost(now, entry.line);
    now = after(now, entry, isSent);
    return isSent;
  });
}

// What became of them: those up to the first that is refused now, which becomes a refused one, and the rest.
/**
 * @param {Machine.Told[]} entries
 * @param {boolean[]} isSent
 * @param {Machine.Applied[]} answers
 * @param {Machine.Real} steps
 * @returns {{ made: Machine.Told[], spoiled: Machine.State["spoiled"], rest: Machine.Told[], steps: Machine.Real }}
 */
export function absorbed(entries, isSent, answers, steps) {
  /** @type {Machine.Told[]} */
  const made = [];
  /** @type {Machine.State["spoiled"]} */
  const spoiled = [];
  let now = steps, at = 0;
  for (const [k, entry] of entries.entries()) {
    const answer = isSent[k] ? answers[at++] : null;
    if (answer === undefined) return { made, spoiled, rest: entries.slice(k), steps: now };
    if (!isPlayed(entry)) {
      made.push(entry);
      continue;
    }
    const isReal = answer !== null && answer.code === 0;
    now = after(now, entry, isReal);
    if (isReal) {
      made.push(entry);
      continue;
    }
    const reply = answer ? answer.reply : firstWord(entry.line) === "undo" ? "refused 70" : "refused 71";
    made.push({ ...entry, reply });
    spoiled.push({ line: entry.line, reply });
    if (answer) return { made, spoiled, rest: entries.slice(k + 1), steps: now };
  }
  return { made, spoiled, rest: [], steps: now };
}

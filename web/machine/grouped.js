// Lines of a gesture that are a group where they are several: what their answers make of it.

import { pairs } from "./pairs.js";
import { tellRefused } from "./refused.js";

// The entries of lines with their answers; those without a reply are none.
/** @param {string[]} lines @param {Machine.Applied[]} answers @param {(line: string) => Partial<Machine.Told>} more */
export const entriesOf = (lines, answers, more = () => ({})) =>
  pairs(lines, answers).flatMap(([line, { reply }]) => reply ? [{ line, reply, ...more(line) }] : []);

// What a group's lines are with those around it.
/** @param {string[]} lines @param {Machine.Applied[]} answers @param {boolean} isRefused */
export const grouped = (lines, answers, isRefused) => isRefused ? ["begin", ...lines.slice(0, answers.length - 2), "abort"] : ["begin", ...lines, "end"];

/** @typedef {Machine.KnownAt<Machine.Stages["edit"]["lines"]>} Edited */

// The lines of the gesture under way were applied, all of a group or none of it; `end` has them settled.
/**
 * @param {Machine.Turn} turn
 * @param {Machine.Lines} answer
 * @param {Edited} at
 * @param {(entries: Machine.Told[], then: { picks?: Machine.Picked[], result: Machine.Result }) => unknown} end
 */
export function applied(turn, { answers, isStopped }, { lines, isGroup, places, changes }, end) {
  if (isStopped) {
    turn.say("Stopped: nothing of it was done.");
    return turn.finish();
  }
  const isRefused = tellRefused(turn, answers), result = { isWell: !isRefused, answers };
  if (!isRefused) {
    turn.say("");
    if (changes) turn.set(changes);
  }
  /** @param {Machine.Place} place */
  const fresh = (place) => ({ id: turn.number(), ...place, words: "", box: null });
  const picks = !isRefused && places ? { picks: places.map(fresh) } : {};
  return end(entriesOf(isGroup ? grouped(lines, answers, isRefused) : lines, answers), { ...picks, result });
}

// What files say of items, carried through the lines of a script.
//
// A station numbers the items of a layer anew with each insertion, deletion and reordering, and an undo gives back the
// numbers of before. This follows: it takes the lines that a station accepts, one after another, and gives for each layer
// the list of what is said of each item now. It never changes a state: each line gives another one, which shares nearly
// all with the one before.
//
//     let state = begun(100);                                      the depth of the station
//     state = carried(state, "load top gerber top.gbr", readAttributes(bytes).items);
//     state = carried(state, "delete top 4");
//     saidOf(state, "top").at(4)                                   what the file says of the item that was the fifth
//
// The history is the station's (crates/cam_undo/specs/Machine.antt): an accepted edit empties what can be redone and,
// past the depth, drops what was done first; a group is one step; a load empties both lists. Of an inserted item nothing
// is said.

import { List } from "./list.js";
import { NOTHING } from "./read.js";

/** @typedef {import("./read.js").Said} Said */
/** @typedef {Map<string, List<Said> | null>} Board */

/** The line does not fit the state, so that no station of this state accepts it. */
export class NotCarried extends Error {}

// The layers by their names; the boards before, the latest last; those that were taken back, the next one last; the board
// at the beginning of an open group, and whether the group has edits.
class Timeline {
  /**
   * @param {number} depth
   * @param {Board} board
   * @param {readonly Board[]} past
   * @param {readonly Board[]} future
   * @param {Board | null} group
   * @param {boolean} hasEdits
   */
  constructor(depth, board, past, future, group, hasEdits) {
    this.depth = depth;
    this.board = board;
    this.past = past;
    this.future = future;
    this.group = group;
    this.hasEdits = hasEdits;
    Object.freeze(this);
  }

  /** @param {Partial<Omit<Timeline, "depth" | "with">>} changes */
  with({ board = this.board, past = this.past, future = this.future, group = this.group, hasEdits = this.hasEdits }) {
    return new Timeline(this.depth, board, past, future, group, hasEdits);
  }
}

// Each edit of items, by its first word, as a change of the list.
/** @typedef {(list: List<Said>, place: number, to: number) => List<Said>} Change */
/** @type {Map<string, Change>} */
const EDITS = new Map([
  ["insert", (list, place) => list.inserted(place, NOTHING)],
  ["delete", (list, place) => list.deleted(place)],
  ["reorder", (list, place, to) => list.moved(place, to)],
]);
// Edits that leave each item in its place.
const OTHERS = new Set(["move", "aperture", "polarity", "tool", "diameter", "setattr", "dropattr"]);

/**
 * The state of a station without layers.
 * @param {number} depth how many edits and groups it can undo
 * @returns {Timeline}
 */
export function begun(depth) {
  return new Timeline(depth, new Map(), [], [], null, false);
}

/** @param {Timeline} state @param {string[]} words */
function edited(state, [verb = "", name = "", ...rest]) {
  if (!state.board.has(name)) throw new NotCarried(`there is no layer ${name}`);
  const change = EDITS.get(verb), list = state.board.get(name);
  const board = change && list ? new Map(state.board).set(name, changed(change, list, rest)) : state.board;
  if (state.group) return state.with({ board, future: [], hasEdits: true });
  return state.with({ board, past: [...state.past, state.board].slice(-state.depth), future: [] });
}

/** @param {Change} change @param {List<Said>} list @param {string[]} words */
function changed(change, list, [place, to]) {
  try {
    return change(list, Number(place), Number(to));
  } catch (fault) {
    throw fault instanceof RangeError ? new NotCarried(fault.message) : fault;
  }
}

/** @param {Timeline} state @param {string} name @param {readonly Said[] | null} said */
function loaded(state, name, said) {
  if (state.board.has(name)) throw new NotCarried(`the name ${name} is taken`);
  if (state.group) throw new NotCarried("a group is open");
  return state.with({ board: new Map(state.board).set(name, said && List.of(said)), past: [], future: [] });
}

/** @param {Timeline} state */
function ended(state) {
  const past = state.hasEdits && state.group ? [...state.past, state.group].slice(-state.depth) : state.past;
  return state.with({ past, group: null, hasEdits: false });
}

/** @type {Map<string, (state: Timeline) => Timeline>} */
const GROUPS = new Map([
  ["begin", (state) => state.with({ group: state.board, hasEdits: false })],
  ["end", ended],
  ["abort", (state) => state.with({ board: state.group ?? state.board, group: null, hasEdits: false })],
]);

/** @param {Timeline} state @param {"past" | "future"} from @param {"past" | "future"} to @param {string} what */
function stepped(state, from, to, what) {
  if (state.group) throw new NotCarried("a group is open");
  const board = state[from].at(-1);
  if (!board) throw new NotCarried(`nothing to ${what}`);
  return state.with({ board, [from]: state[from].slice(0, -1), [to]: [...state[to], state.board] });
}

/**
 * The state after a line that a station accepted.
 * @param {Timeline} state
 * @param {string} line
 * @param {readonly Said[] | null} [said] of a load: what the file says of each item; null where that is not followed, as
 *   of a drill file
 * @returns {Timeline} the same one where the line changes nothing that a history has
 * @throws {NotCarried} where no station of this state accepts it
 */
export function carried(state, line, said = null) {
  const words = line.trim().split(/[ \t\r]+/), [verb = "", name = ""] = words, grouped = GROUPS.get(verb);
  if (EDITS.has(verb) || OTHERS.has(verb)) return edited(state, words);
  if (verb === "load") return loaded(state, name, said);
  if (verb === "undo") return stepped(state, "past", "future", "undo");
  if (verb === "redo") return stepped(state, "future", "past", "redo");
  if (grouped) {
    const isOpen = state.group !== null;
    if (isOpen === (verb === "begin")) throw new NotCarried(`a group is ${isOpen ? "" : "not "}open`);
    return grouped(state);
  }
  return state;
}

/**
 * What is said of each item of a layer now.
 * @param {Timeline} state
 * @param {string} name
 * @returns {List<Said> | null} null where that is not followed
 */
export function saidOf(state, name) {
  const said = state.board.get(name);
  if (said === undefined) throw new NotCarried(`there is no layer ${name}`);
  return said;
}

// Boards that go from window to window: one that no window has is opened, one of another window is asked for, and one of this window is
// handed over. Nothing is lost by that: what is not kept stays where it is.

import { CLOSING_MS } from "./holding.js";
import { Kept, TAKEN } from "./kept.js";
import { nameOf } from "../board/index.js";
import { firstState, isBlank, step, waitsForStation } from "../machine/index.js";

/** @typedef {import("./boards.js").Boards} Boards */

const NOT_KEPT = "What was done to it in the other window is not kept, so it stays there: save it there.";
const NOT_DONE = "Its station stopped in the other window, and what was done since waits there, so it stays there: open the station again there.";

// Opens a board of the browser that no window has.
/** @param {Boards} boards @param {string} key */
export function adopt(boards, key) {
  boards.isNew = false;
  return boards.inTurn(async () => {
    const { there: { holding, store }, board: before } = boards;
    if (!holding.held.has(key) && !await holding.take(key)) {
      boards.say("Another window has opened that board.", true);
      return boards.refresh();
    }
    const found = (await store.list()).find((other) => other.key === key);
    // (what was stolen from a window that stood still meanwhile is known by now)
    await holding.elsewhere();
    const listing = holding.held.has(key) ? found : undefined;
    if (!listing || boards.list.some((board) => board.key === key)) {
      if (!listing) holding.letGo(key);
      boards.say(listing ? "That board is open in this window." : "That board is not there any more.", true);
      return boards.refresh();
    }
    const board = boards.boardOf(listing), isAlone = boards.list.length === 1;
    boards.list.push(board);
    await boards.change(board);
    // (an empty one gives way to it)
    if (isAlone && before.state && isBlank(before.state) && !before.kept.isListed) boards.drop(before);
    return boards.refresh();
  });
}

// Asks the window that has a board for it.
/** @param {Boards} boards @param {string} key */
export async function takeOver(boards, key) {
  const why = await boards.there.holding.ask(key);
  if (why === null) return adopt(boards, key);
  boards.say(why, true);
  return boards.refresh();
}

// Another window asks for a board of this one: null once it is handed over, or why it is not.
/** @param {Boards} boards @param {string} key @returns {Promise<string | null>} */
export function handOver(boards, key) {
  boards.isNew = false;
  return boards.inTurn(async () => {
    const board = boards.list.find((other) => other.key === key);
    if (!board) return "The other window does not have it any more.";
    if (board.reading) return "Files for it are being read in the other window.";
    if (board === boards.shown && !await isSoonAtRest(boards)) {
      return "Something is under way with it in the other window, or asked there.";
    }
    const state = board === boards.shown ? boards.machine.state : board.state ?? firstState();
    if (waitsForStation(state)) return NOT_DONE;
    if (state.kept.why !== null || state.kept.isLost) return NOT_KEPT;
    if (board === boards.shown) await leave(boards, board);
    if (board.state && (board.state.kept.why !== null || board.state.kept.isLost)) {
      await boards.change(board);
      return NOT_KEPT;
    }
    await board.kept.still();
    boards.drop(board);
    boards.say(`${nameOf(board)} is open in another window now.`);
    return null;
  });
}

// Shows another board than this one, which may be a new one.
/** @param {Boards} boards @param {Page.Board} board */
async function leave(boards, board) {
  const at = boards.list.indexOf(board);
  let next = boards.list[at + 1] ?? boards.list[at - 1];
  if (!next) {
    next = await boards.fresh();
    boards.list.push(next);
  }
  await boards.change(next);
}

/** @param {Boards} boards */
const isSoonAtRest = ({ machine, platform }) =>
  Promise.race([machine.atRest().then(() => true), platform.pause(2 * CLOSING_MS).then(() => false)]);

/** @param {Machine.Told[]} one @param {Machine.Told[]} other */
const isStart = (one, other) => one.length <= other.length
  && one.every(({ line, reply }, at) => line === other[at]?.line && reply === other[at]?.reply);

// Whether a board is as it was when it was taken, and all of it was kept then. One that was played again since has other lines alike.
/** @param {Machine.State} state @param {Machine.Told[]} before */
const isAsItWas = ({ kept, told }, before) => told.length === before.length && isStart(told, before) && !kept.records.length
  && !kept.files.length && !kept.isWaiting;

// Whether all lines of a board are kept now: the answer to a write may come after the board was taken.
/** @param {Machine.State} state @param {Kept} journal */
const isThere = async ({ kept, told, opened, refused }, journal) => !kept.files.length && !opened.length && !refused.length
  && isStart(told, await journal.lines());

// Another window took a board without being answered. What is kept of it is there; what is not is here alone, as a board of its own.
/** @param {Boards} boards @param {string} key */
export function stolen(boards, key) {
  const board = boards.list.find((other) => other.key === key);
  if (!board || board.isTaken) return undefined;
  const now = () => board === boards.shown ? boards.machine.state : board.state, before = now()?.told;
  board.isTaken = true;
  board.kept.lose(true);
  return boards.inTurn(async () => {
    if (!boards.list.includes(board)) return;
    if (board === boards.shown) {
      await boards.machine.atRest();
      await leave(boards, board);
    }
    const after = now();
    if (after === null || !waitsForStation(after) && (isAsItWas(after, before ?? board.kept.found) || await isThere(after, board.kept))) {
      boards.drop(board);
      boards.say(`${nameOf(board)} is open in another window now.`);
      return;
    }
    await rename(boards, board);
    await boards.change(board);
  });
}

// A board goes on as another one, of which nothing is kept yet.
/** @param {Boards} boards @param {Page.Board} board */
async function rename(boards, board) {
  const { key } = await boards.fresh(), { looks } = board.kept, { holding, store } = boards.there;
  holding.letGo(board.key);
  Object.assign(board, { key, isTaken: false });
  board.kept = Object.assign(new Kept(store, board, null, (event, kept) => boards.hear(event, kept)), { looks, isLost: true, why: TAKEN });
  if (board.state) board.state = step(board.state, { kind: "lost", why: TAKEN }).state;
  holding.tell();
}

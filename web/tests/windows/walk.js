// Walks at random over two to four windows of one browser. After each gesture, and whenever all is at rest: each board that a window
// promised to keep is there once, with exactly its lines; no board is in two windows; and no window says of a board that it is kept,
// lost or open elsewhere where it is not.

import assert from "node:assert/strict";
import { chances } from "../../../tools/tests/pictures.js";
import { ModelBrowser } from "./browser.js";
import { ModelPage } from "./page.js";
import { GESTURES } from "./gestures.js";
import { rowsOf } from "./database.js";

const NAME = "camplot boards", WEIGHT = GESTURES.reduce((sum, [weight]) => sum + weight, 0);

// (the lines of a state are never changed in place, so their texts are made once)
const texts = new WeakMap();
function textOf(told) {
  if (!texts.has(told)) texts.set(told, told.map(({ line, reply }) => `${line} -> ${reply}`));
  return texts.get(told);
}
const isStart = (one, other) => one.length <= other.length && one.every((value, at) => value === other[at]);
const isSame = (one, other) => one.length === other.length && isStart(one, other);
// All that a board has handed over to be kept; what its station was not looked at for yet is no part of its lines.
const handedOver = ({ told, work }) => work?.entries?.length ? [...textOf(told), ...textOf(work.entries)] : textOf(told);
// Whether a window still has the database that the browser has.
const isConnected = ({ boards: { store } }) => store?.base?.isOpen === true;

export class WindowsWalk {
  constructor(seed) {
    this.chance = chances(seed);
    for (let turn = 0; turn < 20; turn++) this.chance();
    this.browser = new ModelBrowser(this.chance);
    Object.assign(this, { seed, pages: [], told: [], serial: 0, deleted: 0, hadFull: false, wasStill: false });
    // What windows promised to keep, by the boards' names: their lines; what they handed over since; and what a store of before has,
    // which is there once.
    this.promises = new Map();
    this.handed = new Map();
    this.older = [];
    this.browser.happened = () => this.watch();
  }

  at(below) {
    return Math.floor(this.chance() * below);
  }

  of(list) {
    return list[this.at(list.length)];
  }

  get living() {
    return this.pages.filter(({ window }) => !window.isDead);
  }

  // What is kept of a board: its lines, as they were told.
  stored(key) {
    return textOf(rowsOf(this.browser, NAME, "lines").filter(([name]) => name[0] === key).flatMap(([, { entries }]) => entries));
  }

  get keys() {
    return rowsOf(this.browser, NAME, "boards").map(([key]) => key);
  }

  // What the windows promise now: all that was done to a board and is known to be kept, where no note says otherwise. What was handed
  // over since is kept, or not. One that has not heard yet that its board was taken, or that all was deleted, promises nothing more.
  promise(page) {
    if (page.window.isStill || page.window.isDead || page.state.isLeaving || !isConnected(page)) return;
    for (const { board, state } of page.states) {
      const { isOpen, isLost, why, isAnew, records } = state.kept;
      if (!isOpen || isLost || board.isTaken || this.holderOf(board.key) !== page.window) continue;
      const all = handedOver(state), handed = this.handed.get(board.key) ?? [];
      if (why !== null || isAnew) this.handed.set(board.key, handed.some((one) => isSame(one, all)) ? handed : [...handed, all]);
      else {
        this.promises.set(board.key, all.slice(0, all.length - records.flat().length));
        this.handed.set(board.key, [all]);
      }
    }
  }

  // After each event: what is promised by then may be handed over, closed or written anew before all is at rest.
  watch() {
    for (const page of this.pages) {
      if (page.watched !== page.state) this.promise(page);
      page.watched = page.state;
    }
    for (const entry of this.older) this.seek(entry);
  }

  // A window ends at once; the boards that it had.
  kill(page) {
    this.promise(page);
    const keys = page.states.map(({ board }) => board.key).filter((key) => this.holderOf(key) === page.window);
    page.kill();
    return keys;
  }

  // What is there after windows ended: what was promised, perhaps with what was handed over since.
  settle(keys) {
    for (const key of keys) {
      const promised = this.promises.get(key), handed = this.handed.get(key) ?? [];
      if (!promised) continue;
      const now = this.stored(key), isMore = handed.some((all) => isSame(now, all) || isStart(promised, now) && isStart(now, all));
      assert.ok(isSame(now, promised) || isMore, `${key} was left with ${promised.length} lines, and has ${now.length}: ${now.slice(0, 9).join("; ")}`);
      this.promises.set(key, now);
      this.handed.delete(key);
    }
  }

  open(session = null) {
    this.pages = [...this.living, this.heeded(new ModelPage(this.browser, session))];
  }

  // What a person closes is promised no more.
  heeded(page) {
    page.closed = (key) => this.promises.delete(key);
    page.wasFull = this.browser.isFull;
    return page;
  }

  // (a page that loads itself anew is another one)
  renew() {
    this.pages = this.pages.map((page) => page.next ? this.heeded(page.next) : page);
  }

  async rest(ms = 0) {
    await this.browser.rest(ms);
    this.renew();
    for (const page of this.living) {
      if (page.window.isStill || page.isReady || page.window.isDead) continue;
      await this.browser.rest(20000);
      this.renew();
    }
  }

  check() {
    const awake = this.living.filter(({ window }) => !window.isStill);
    for (const page of this.living) assert.deepEqual([...page.faults, ...page.state.faults], []);
    for (const page of awake) this.promise(page);
    const where = awake.flatMap((page) => page.boards.list.map(({ key }) => key));
    assert.equal(new Set(where).size, where.length, `a board is in two windows: ${where}`);
    for (const page of awake) this.checkPage(page);
    this.checkKept();
    this.checkOlder();
  }

  checkPage(page) {
    for (const { board, state } of page.states) {
      const { isOpen, isLost, why } = state.kept;
      if (state.work !== null) continue;
      if (isOpen && !isLost && why === null) {
        assert.deepEqual(this.stored(board.key), textOf(state.told), `${board.key} is told to be kept`);
        if (state.told.length) assert.ok(this.keys.includes(board.key), `${board.key} is kept, and in no list`);
      }
      assert.ok(isOpen || why !== null, `${board.key} is not kept, and no word says so`);
      if (why !== null && /was deleted/.test(why)) assert.ok(this.deleted > 0 && isLost, `${board.key} is told to be deleted`);
      if (why !== null && /cannot keep more/.test(why)) assert.ok(this.hadFull, `${board.key} is told to be too much`);
      if (why !== null && /Another window took/.test(why)) this.checkTaken(board.key, textOf(state.told));
      assert.doesNotMatch(why ?? "", /keeps nothing|cannot be read/);
      assert.ok(this.holderOf(board.key) === page.window, `${board.key} has no lock`);
    }
  }

  // What was taken stays only where something was done to it that the other window has not.
  checkTaken(key, told) {
    assert.ok(this.wasStill, `${key} is told to be taken`);
    const isOwn = told.some((text) => /^(move|insert)/.test(text));
    for (const [other, lines] of this.promises) assert.ok(other === key || !isOwn || !isSame(lines, told), `${key} is ${other} once more`);
  }

  holderOf(key) {
    return this.browser.locks.get(`${NAME} ${key}`)?.holder?.window;
  }

  // Every board that was promised is kept, and is listed.
  checkKept() {
    const open = new Set(this.living.flatMap((page) => page.states.map(({ board }) => board.key)));
    for (const [key, lines] of this.promises) {
      if (open.has(key) || !lines.length) continue;
      assert.deepEqual(this.stored(key), lines, `${key} was promised`);
      assert.ok(this.keys.includes(key), `${key} was promised, and is in no list`);
    }
  }

  // A store of before has a board of these lines.
  expect(entries) {
    this.older.push({ lines: textOf(entries), looked: new Set(), found: [] });
  }

  // Where a board of a store of before is: each board that is new by now is looked at once. It is promised from then on.
  seek({ lines, looked, found }) {
    for (const key of this.keys.filter((other) => !looked.has(other))) {
      looked.add(key);
      const its = this.stored(key);
      if (!isStart(lines, its)) continue;
      found.push(key);
      if (!this.promises.has(key)) this.promises.set(key, its);
    }
  }

  // What a store of before had came once, as soon as a page was opened.
  checkOlder() {
    if (!this.older.length || !this.living.some(({ isReady, wasFull }) => isReady && !wasFull)) return;
    for (const { lines, found } of this.older) assert.equal(found.length, 1, `a board of before came ${found.length} times: ${lines}`);
    this.older = [];
  }

  // Each window knows of all boards that there are, and which of them others have.
  async lists() {
    const awake = this.living.filter(({ window, isReady }) => !window.isStill && isReady);
    const looked = awake.map((page) => page.boards.refresh());
    await this.rest();
    await Promise.all(looked);
    for (const page of awake.filter(({ window }) => !window.isDead)) {
      const own = page.boards.list.map(({ key }) => key);
      for (const { key, isHeld } of page.boards.others) {
        // (one that stands still may not have heard yet that a board went from it)
        const isElsewhere = this.living.some((other) => other !== page && (other.window === this.holderOf(key)
          || !other.window.isStill && other.boards.list.some((board) => board.key === key)));
        assert.equal(isHeld, isElsewhere, `${key} is told to be ${isHeld ? "" : "not "}open elsewhere`);
        assert.ok(!own.includes(key), `${key} is listed twice`);
      }
      // (what it has got is in a tab as soon as a person has answered what is asked)
      const known = new Set([...own, ...page.boards.holding.held.keys(), ...page.boards.others.map(({ key }) => key)]);
      for (const key of this.keys) assert.ok(known.has(key) || !this.stored(key).length, `${key} is kept, and a window does not list it`);
    }
  }

  // So many gestures; words of what failed come with the last of them.
  async run(count) {
    this.open();
    await this.rest(3000);
    try {
      for (let turn = 0; turn < count; turn++) await this.step();
      await this.end();
    } catch (fault) {
      fault.told = `seed ${this.seed}, gesture ${this.told.length}: ${this.told.slice(-12).join(" | ")}\n${fault.stack}`;
      throw fault;
    }
    return this.told.length;
  }

  async step() {
    const [words, act] = this.gesture();
    this.told.push(words);
    await act();
    if (this.at(5) < 2) {
      for (let left = this.at(60); left > 0; left--) await this.browser.happen();
      this.renew();
      return;
    }
    await this.rest();
    await this.answer();
    this.check();
    if (this.at(6) === 0) await this.lists();
  }

  // What is asked is answered, by yes as a rule.
  async answer() {
    for (let turn = 0; turn < 20; turn++) {
      const asking = this.living.filter(({ window, state }) => !window.isStill && state.questions.length);
      if (!asking.length) return;
      for (const page of asking) {
        const [{ id, kind }] = page.state.questions;
        if (kind === "anew") {
          for (const { key } of page.boards.list) this.promises.delete(key);
          this.older = [];
        }
        page.machine.send({ kind: "replied", question: id, value: this.at(4) || kind === "anew" ? "yes" : "no" });
      }
      await this.rest(kindOf(asking) === "anew" ? 4000 : 0);
    }
  }

  // All windows are closed, and the page is opened again: what was promised is there, in it.
  async end() {
    this.browser.isFull = false;
    for (const page of this.living) page.window.isStill = false;
    await this.rest(20000);
    await this.answer();
    this.check();
    this.settle(this.living.flatMap((page) => this.kill(page)));
    this.open();
    await this.rest(20000);
    await this.answer();
    this.check();
    await this.lists();
  }

  gesture() {
    const awake = this.living.filter(({ window, isReady }) => !window.isStill && isReady), page = this.of(awake);
    if (!page) return ["a window is opened", () => this.open()];
    let rest = this.at(WEIGHT);
    for (const [weight, make] of GESTURES) {
      rest -= weight;
      if (rest < 0) return make(this, page) ?? ["nothing", () => {}];
    }
    throw new Error("no gesture");
  }
}

const kindOf = (pages) => pages.some(({ state }) => state.isLeaving) ? "anew" : "";

// The boards of this window, each with a state, a station and a journal of its own, and the part of it that is seen. One is shown; in
// the others nothing is under way, and their stations wait. Which boards the browser has beside these, other windows know too.

import { CLOSING_MS, Holding } from "./holding.js";
import { Kept, LOST } from "./kept.js";
import { firstState, fromElsewhere, isBlank, step, waitingOf } from "../machine/index.js";
import { Store, faultWords, settled } from "./store.js";
import { adopt, handOver, stolen, takeOver } from "./handing.js";
import { nameOf, plural, titleOf } from "../board/index.js";
import { bringOver } from "./older_store.js";

// What an event makes of a board that is not shown. Nothing of what waits there begins, since its messages would go nowhere.
/** @param {Machine.State} state @param {Machine.Event} event @returns {Machine.State} */
function stepApart(state, event) {
  const { station } = state, next = step({ ...state, station: { ...station, isOpen: false } }, event).state;
  return event.kind === "stopped" ? next : { ...next, station };
}

export class Boards {
  /** @param {Page.Runner} machine @param {Page.Platform} platform @param {Page.Desk} desk what shows a board (main.js) */
  constructor(machine, platform, desk) {
    this.machine = machine;
    this.platform = platform;
    this.desk = desk;
    /** @type {Page.Board[]} */
    this.list = [];
    /** @type {Page.Board | null} */
    this.shown = null;
    // The boards of the browser that this window has not; `isHeld` where another one has.
    /** @type {(Page.Listing & { isHeld: boolean })[]} */
    this.others = [];
    /** @type {Promise<unknown>} */
    this.last = Promise.resolve();
    /** @type {Store | null} */
    this.store = null;
    /** @type {Holding | null} */
    this.holding = null;
    // The last moment at which a board was shown, and whether nothing was done in this window yet.
    this.moment = 0;
    this.isNew = platform.isFresh;
  }

  // Opens the store under the name of a journal, and takes the boards that this window goes on with: those that it had when it was
  // loaded anew, or in a window that is new all that no other one has. What is said of that.
  /** @param {string} journal @param {boolean} hasContents */
  async open(journal, hasContents) {
    const { platform } = this, name = journal ? `camplot boards ${journal}` : "camplot boards";
    const store = this.store = await Store.open(platform, name, () => this.lost());
    this.holding = new Holding(platform, name, { asked: (key) => handOver(this, key), stolen: (key) => stolen(this, key),
      heard: () => this.refresh() });
    const bringing = store.base ? bringOver(store, `camplot ${journal}`) : Promise.resolve({ left: 0 });
    const older = await bringing.catch((/** @type {unknown} */ fault) => ({ left: 0, fault }));
    if (store.base) await this.sweep();
    const taken = await this.takeFree(CLOSING_MS);
    this.list = taken.length ? taken : [await this.fresh(hasContents)];
    this.shown = this.list.reduce((one, other) => other.shown > one.shown ? other : one);
    this.moment = this.shown.shown;
    await this.refresh();
    return this.words(older);
  }

  // The board that is shown has begun, unless a person chose another one meanwhile.
  begun() {
    this.park();
    this.machine.await(this.board.kept.keepLooks());
    this.desk.changed();
    this.watch();
  }

  // A window that was killed says nothing: one in which nothing was done looks whether there are boards to go on with.
  async watch() {
    while (this.isUntouched) {
      await this.platform.pause(CLOSING_MS);
      if (this.isUntouched && this.others.some(({ isHeld }) => isHeld)) await this.refresh();
    }
  }

  // What a person is told of the other boards when the page begins.
  /** @param {{ left: number, fault?: unknown }} older what became of those that pages of before had */
  words({ left, fault }) {
    const held = this.others.filter(({ isHeld }) => isHeld).length, found = this.others.filter(({ isFound }) => isFound).length;
    const are = (/** @type {number} */ count) => count === 1 ? "is" : "are";
    return [held ? `${plural(held, "board")} ${are(held)} open in another window: see 'boards'.` : "",
      found ? `${plural(found, "board")} ${are(found)} kept that no list had: see 'boards'.` : "",
      left ? "A window with the page as it was before an update is open: close it, and load this page again to have its boards." : "",
      fault ? `The boards that this page kept before an update are kept still, and could not be opened (${faultWords(fault)}).` : ""]
      .filter((words) => words).join(" ");
  }

  // What can be done once it is opened.
  get there() {
    const { store, holding } = this;
    if (!store || !holding) throw new Error("the boards are not open yet");
    return { store, holding };
  }

  // The board that is shown.
  get board() {
    if (!this.shown) throw new Error("no board is shown yet");
    return this.shown;
  }

  /** @param {Page.Listing} listing @returns {Page.Board} */
  boardOf(listing) {
    const { key, number, title, shown, hasContents } = listing;
    return this.withJournal({ key, number, title, shown, hasContents }, listing);
  }

  /** @param {Page.Titled} titled @param {Page.Listing | null} listing @returns {Page.Board} */
  withJournal(titled, listing) {
    const kept = new Kept(this.there.store, titled, listing, (event, its) => this.hear(event, its));
    return Object.assign(titled, { state: null, kept });
  }

  // Another board, in which nothing was done.
  async fresh(hasContents = false) {
    const { store, holding } = this.there, key = this.platform.newName(), all = await store.list();
    const number = 1 + Math.max(0, ...[...all, ...this.list].map((other) => other.number));
    const board = this.withJournal({ key, number, title: null, shown: this.now(), hasContents }, null);
    await holding.take(key);
    return board;
  }

  now() {
    this.moment = Math.max(this.moment + 1, this.platform.now());
    return this.moment;
  }

  // Forgets boards in which nothing is, and that no window has.
  async sweep() {
    const { window } = this.platform, { store, holding } = this.there;
    for (const { key, isBlank: isEmpty, window: its } of await store.list()) {
      if (!isEmpty || its === window || !await holding.take(key)) continue;
      await store.attempt(async (stores) => {
        const { lines, files } = stores, range = store.of(key);
        const counts = await Promise.all([settled(lines.count(range)), settled(files.count(range))]);
        if (counts.some((count) => count > 0)) return;
        store.empty(stores, key);
        stores.boards.delete(key);
      });
      holding.letGo(key);
    }
  }

  // Takes what no other window has: of a window that was loaded anew its own boards alone. What is not there any more once it is taken
  // was closed meanwhile.
  /** @param {number} patience */
  async takeFree(patience) {
    const { isFresh, window } = this.platform, { store, holding } = this.there;
    const wanted = (await store.list()).filter((listing) => !listing.isFound && (isFresh ? !listing.isBlank : listing.window === window));
    const taken = await Promise.all(wanted.map(({ key }) => holding.take(key, patience)));
    const keys = new Set(wanted.filter((_, at) => taken[at]).map(({ key }) => key));
    const listed = (await store.list()).filter(({ key }) => keys.has(key));
    // (what was stolen from a window that stood still meanwhile is known by now)
    await holding.elsewhere();
    const there = listed.filter(({ key }) => holding.held.has(key));
    for (const key of keys) if (!there.some((listing) => listing.key === key)) holding.letGo(key);
    return there.map((listing) => this.boardOf(listing));
  }

  // Looks again at which boards there are beside those of this window. One in which nothing was done goes on with those that no
  // window has any more.
  async refresh() {
    const { store, holding } = this.there, listed = await store.list(), held = await holding.elsewhere();
    this.others = listed.filter(({ key, isBlank: isEmpty }) => !holding.held.has(key) && (!isEmpty || held.has(key)))
      .map((listing) => ({ ...listing, isHeld: held.has(listing.key) }));
    this.desk.changed();
    if (this.isUntouched && this.others.some(({ isHeld, isFound }) => !isHeld && !isFound)) this.inTurn(() => this.succeed());
  }

  // Whether nothing was done in this window since it was opened.
  get isUntouched() {
    const { isNew, list, machine } = this, [first] = list;
    return isNew && list.length === 1 && first === this.shown && !first?.kept.isListed && machine.hasBegun && isBlank(machine.state);
  }

  async succeed() {
    if (!this.isUntouched) return;
    const blank = this.board, taken = await this.takeFree(0);
    if (!taken.length) return;
    this.isNew = false;
    this.list.push(...taken);
    await this.change(taken.reduce((one, other) => other.shown > one.shown ? other : one));
    if (blank.state && isBlank(blank.state)) this.drop(blank);
    await this.refresh();
  }

  // What the machine has of the board that is shown.
  park() {
    const { machine, board } = this, { state, link, kept } = machine;
    Object.assign(board, { state, link, kept, view: this.desk.seen(), title: titleOf(state) });
  }

  // One switch after another.
  /** @template T @param {() => Promise<T>} act @returns {Promise<T>} */
  inTurn(act) {
    const turn = this.last.then(act);
    this.last = turn.catch((fault) => this.machine.send({ kind: "fault", why: faultWords(fault) }));
    this.machine.await(this.last);
    return turn;
  }

  // Opens files in the board that they were given to. Where another one is shown by now they are kept, and opened when that is shown.
  /** @param {Page.Board | null} board @param {{ files: Machine.File[], areNamed: boolean, faults: string[] }} given */
  take(board, { files, areNamed, faults }) {
    if (board === this.shown) return this.machine.open(files, areNamed, faults);
    if (!board?.state || !this.list.includes(board)) {
      return this.say("The board that files were dropped on is not open any more, so they were not opened.", true);
    }
    const { state, kept } = board, waiting = stepApart(state, { kind: "open", files, areNamed, faults, token: "" });
    board.state = waiting;
    this.say(`${plural(files.length, "file")} for ${nameOf(board)}: opened as soon as it is shown.`);
    const { count, isLost, isOpen, records } = state.kept, ids = waiting.queue.flatMap(({ files: its = [] }) => its);
    if (!isOpen || isLost || records.length) return undefined;
    const its = Object.entries(waiting.files).filter(([id]) => ids.includes(id));
    return this.machine.await(kept.write({ from: count, records: [], files: its.map(([id, { bytes }]) => [id, bytes]),
      waiting: waitingOf(waiting) }).then(({ isKept, why }) => isKept || this.unkept(board, why)));
  }

  // What was given to a board could not be kept, as where the browser's room is full: a person is told, and the board knows it.
  /** @param {Page.Board} board @param {string | undefined} why */
  unkept(board, why) {
    /** @type {Machine.Event} */
    const event = { kind: "kept", number: 0, isKept: false, ...why === undefined ? {} : { why } };
    if (board === this.shown) this.machine.send(event);
    else this.happened((other) => other === board, event);
    this.say(`What was opened in ${nameOf(board)} is not kept. ${why ?? ""}`, true);
  }

  /** @param {Page.Board} board */
  show(board) {
    return this.inTurn(() => this.change(board));
  }

  // Another board next to the one that is shown. It is listed at once, or says that it is not kept.
  add() {
    this.isNew = false;
    return this.inTurn(async () => {
      const board = await this.fresh();
      await board.kept.list();
      this.list.push(board);
      await this.change(board);
    });
  }

  // What is kept of a board that was not shown yet is read before, so that what a person does meanwhile is done to the board that is
  // shown, and nothing of it between the two.
  /** @param {Page.Board} board */
  async change(board) {
    const { desk, machine } = this;
    if (board === this.shown || !this.list.includes(board)) return;
    const journal = board.state ? null : await board.kept.read();
    await machine.atRest();
    const copied = fromElsewhere(machine.state.copied);
    desk.keepLooks();
    this.park();
    Object.assign(board, { shown: this.now() });
    this.shown = board;
    if (board.state) {
      Object.assign(machine, { state: board.state, link: board.link, kept: board.kept });
      desk.show(board.view ?? null);
      // (what was given to it meanwhile begins)
      machine.send({ kind: "setting", changes: { copied } });
      machine.draw();
    } else {
      desk.show(null);
      Object.assign(machine, { state: firstState(), link: null, kept: board.kept });
      machine.send({ kind: "begin", kept: journal ?? await board.kept.read(), contents: board.hasContents ? desk.contents() : null });
      machine.send({ kind: "setting", changes: { copied } });
      this.tellLost();
      await this.begin();
    }
    machine.await(board.kept.keepLooks());
    this.there.holding.tell();
    desk.changed();
  }

  // Starts the station of a board that was not shown yet.
  async begin() {
    const { machine } = this;
    try {
      await this.desk.openStation();
      machine.send({ kind: "started" });
    } catch (fault) {
      machine.send({ kind: "stopped", why: faultWords(fault) });
    }
    await machine.begun();
    this.park();
  }

  // A board is in no tab any more, and its lock is free.
  /** @param {Page.Board} board */
  drop(board) {
    this.list = this.list.filter((other) => other !== board);
    board.link?.end("closed");
    board.kept.isLost = true;
    const { holding } = this.there;
    holding.letGo(board.key);
    holding.tell();
    this.desk.changed();
  }

  // The board that is shown was closed: its tab goes, where there is another one, but not with what was opened in it meanwhile.
  left() {
    if (this.list.length < 2) return this.desk.changed();
    return this.inTurn(async () => {
      await this.machine.atRest();
      const gone = this.board, at = this.list.indexOf(gone), next = this.list[at + 1] ?? this.list[at - 1];
      if (!next || !isBlank(this.machine.state)) return this.desk.changed();
      await this.change(next);
      if (gone.state && !isBlank(gone.state)) return this.change(gone);
      const isGone = await gone.kept.forget();
      this.drop(gone);
      if (!isGone) this.say(`The browser could not delete what it kept of ${nameOf(gone)}.`, true);
      return undefined;
    });
  }

  /** @param {string} text @param {boolean} isFault */
  say(text, isFault = false) {
    this.machine.send({ kind: "say", text, isFault });
  }

  // Opens a board of the browser that no window has, or takes one over from another window.
  /** @param {string} key */
  adopt(key) {
    return adopt(this, key);
  }

  /** @param {string} key */
  takeOver(key) {
    return takeOver(this, key);
  }

  // What the browser kept was deleted.
  lost() {
    for (const { kept } of this.list) kept.lose();
  }

  // That what is kept of a board was deleted, or taken, before the board began was told to nobody.
  tellLost() {
    const { isLost, why } = this.board.kept;
    if (isLost) this.machine.send({ kind: "lost", why: why ?? LOST });
  }

  // What is heard of a journal.
  /** @type {Page.Warn} */
  hear(event, kept) {
    if (event.isTaken) stolen(this, kept.key);
    const { isTaken, ...lost } = event;
    if (kept === this.machine.kept) this.machine.send(lost);
    else this.happened((board) => board.kept === kept, lost);
    return isTaken;
  }

  // What happens to a board that is not shown: its station stops, or what is kept of it is deleted.
  /** @param {(board: Page.Board) => boolean} isOf @param {Machine.Event} event */
  happened(isOf, event) {
    const board = this.list.find((other) => other !== this.shown && other.state && isOf(other));
    if (board?.state) board.state = stepApart(board.state, event);
  }

  // How many changes are not saved in the boards that are not shown.
  get unsaved() {
    return this.list.reduce((sum, board) => sum + (board === this.shown ? 0 : board.state?.unsaved ?? 0), 0);
  }

  // Forgets what is kept of the boards of this window.
  async forgetAll() {
    for (const { kept } of this.list) await kept.forget();
  }
}

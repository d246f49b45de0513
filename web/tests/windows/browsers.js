// Walks at random over two windows of a real browser, as walk.js does over those of the model: gestures in either, and after each what
// the windows say beside what the database has.

import assert from "node:assert/strict";
import { chances } from "../../../tools/tests/pictures.js";
import { gerber } from "../support.js";
import { pause } from "../hands.js";

const isStart = (one, other) => one.length <= other.length && one.every((value, at) => value === other[at]);
const isSame = (one, other) => one.length === other.length && isStart(one, other);

// What a window says of its boards and of others, when it is at rest; a question that is open is answered by yes.
const LOOK = `(async () => {
  for (let turn = 0; turn < 50; turn++) {
    await Promise.race([camplot.idle(), new Promise((done) => { setTimeout(done, 300); })]);
    const question = document.getElementById("question");
    if (!question.open) break;
    [...document.querySelectorAll("#question-choices button")].find((one) => /^(Close it|Open them)/.test(one.textContent))?.click();
  }
  const { boards, machine } = camplot;
  await boards.refresh();
  await camplot.idle();
  const words = ({ told }) => told.map(({ line, reply }) => line + " -> " + reply);
  return { shown: boards.shown.key, faults: machine.state.faults, list: boards.list.map((board) => {
    const state = board === boards.shown ? machine.state : board.state, { kept } = state ?? {};
    return { key: board.key, told: state && words(state), isKept: Boolean(kept && kept.isOpen && !kept.isLost && kept.why === null && !state.work), why: kept?.why ?? null };
  }), others: boards.others.map(({ key, isHeld }) => ({ key, isHeld })) };
})()`;

// All lines that the database has, by the names of boards.
const STORED = `(async () => {
  const done = (request) => new Promise((well, ill) => { request.onsuccess = () => well(request.result); request.onerror = () => ill(request.error); });
  const base = await done(indexedDB.open("camplot boards")), transaction = base.transaction(["boards", "lines"]);
  const [keys, names, records] = await Promise.all([done(transaction.objectStore("boards").getAllKeys()), done(transaction.objectStore("lines").getAllKeys()),
    done(transaction.objectStore("lines").getAll())]);
  base.close();
  const all = Object.fromEntries(keys.map((key) => [key, []]));
  names.forEach(([key], at) => (all[key] ??= []).push(...records[at].entries.map(({ line, reply }) => line + " -> " + reply)));
  return all;
})()`;

export class BrowsersWalk {
  // `driver` opens windows, asks them, loads them anew and ends them.
  constructor(driver, seed) {
    this.chance = chances(seed);
    for (let turn = 0; turn < 20; turn++) this.chance();
    Object.assign(this, { driver, seed, windows: [], told: [], serial: 0, promises: new Map() });
  }

  at(below) {
    return Math.floor(this.chance() * below);
  }

  of(list) {
    return list[this.at(list.length)];
  }

  ask(window, expression) {
    return this.driver.ask(window, expression);
  }

  // All windows at rest; what they say is so.
  async check() {
    // (what one window answers may change what another one lists)
    for (const window of this.windows) await this.ask(window, LOOK);
    // (a window that was closed holds its locks for a moment, as the browser tells)
    for (let left = 20; ; left--) {
      this.seen = [];
      for (const window of this.windows) this.seen.push({ window, ...await this.ask(window, LOOK) });
      const open = this.seen.flatMap(({ list }) => list.map(({ key }) => key));
      if (!left || this.seen.every(({ others }) => others.every(({ key, isHeld }) => isHeld === open.includes(key)))) break;
      await pause(300);
    }
    const stored = await this.ask(this.windows[0], STORED), where = this.seen.flatMap(({ list }) => list.map(({ key }) => key));
    assert.equal(new Set(where).size, where.length, `a board is in two windows: ${where}`);
    for (const { list, others, faults } of this.seen) {
      assert.deepEqual(faults, []);
      for (const { key, told, isKept, why } of list) {
        assert.equal(why, null, `${key} is told not to be kept`);
        if (told === null) continue;
        assert.ok(isKept, `${key} is not kept, and nothing is told of it`);
        assert.deepEqual(stored[key] ?? [], told, `${key} is told to be kept`);
        this.promises.set(key, told);
      }
      for (const { key, isHeld } of others) {
        if (!this.seen.some((other) => other.list === list)) continue;
        assert.equal(isHeld, where.includes(key), `${key} is told to be ${isHeld ? "" : "not "}open elsewhere`);
      }
    }
    for (const [key, lines] of this.promises) {
      if (!lines.length) continue;
      const now = stored[key] ?? [];
      assert.ok(isSame(now, lines) || this.isCut && isStart(lines, now), `${key} was promised with ${lines.length} lines, and has ${now.length}`);
      this.promises.set(key, now);
    }
    this.isCut = false;
  }

  async open() {
    this.windows.push(await this.driver.open());
  }

  async end(window, how) {
    this.isCut = true;
    this.windows = this.windows.filter((other) => other !== window);
    await this.driver[how](window);
    if (!this.windows.length) await this.open();
  }

  async run(count, until = Infinity) {
    await this.open();
    await this.open();
    try {
      await this.check();
      while (this.told.length < count && Date.now() < until) await this.step();
    } catch (fault) {
      throw new Error(`seed ${this.seed}, gesture ${this.told.length}: ${this.told.slice(-12).join(" | ")}\n${fault.message}`);
    }
    for (const window of this.windows) await this.driver.close(window);
    return this.told.length;
  }

  async step() {
    const at = this.at(this.windows.length), window = this.windows[at], { list, others, shown } = this.seen.find((one) => one.window === window);
    const board = list.find(({ key }) => key === shown), pick = this.at(100), say = (words) => this.told.push(`${at}: ${words}`);
    if (pick < 34) {
      const line = this.of([`move top 0 ${++this.serial} 0`, `insert top 0 flash 10 ${++this.serial} 0 r0 dark`, "delete top 1", "undo", "redo"]);
      say(line);
      await this.ask(window, `camplot.run([${JSON.stringify(line)}]).then(() => 0)`);
    } else if (pick < 46 && (board.told?.length ?? 0) < 25) {
      say("a file is dropped");
      await this.drop(window);
    } else if (pick < 54 && list.length < 4) {
      say("new");
      await this.ask(window, "camplot.boards.add().then(() => 0)");
    } else if (pick < 64) {
      say("another tab");
      await this.ask(window, `camplot.boards.show(camplot.boards.list[${this.at(list.length)}]).then(() => 0)`);
    } else if (pick < 70) {
      say("close");
      for (const { key } of [board]) this.promises.delete(key);
      await this.ask(window, "(camplot.machine.gesture({ kind: 'closeAll' }), 0)");
    } else if (pick < 80) {
      const other = this.of(others);
      say(other ? other.isHeld ? "take over" : "open" : "nothing");
      if (other) await this.ask(window, `camplot.boards.${other.isHeld ? "takeOver" : "adopt"}(${JSON.stringify(other.key)}).then(() => 0)`);
    } else if (pick < 84) {
      say("its worker ends");
      await this.ask(window, "(camplot.machine.link.worker.terminate(), camplot.machine.link.end('it ended'), camplot.machine.send({ kind: 'openAgain' }), 0)");
    } else if (pick < 89) {
      say("loaded anew");
      await this.driver.reload(window);
    } else if (pick < 95) {
      say("closed");
      await this.end(window, this.at(2) ? "close" : "crash");
    } else if (pick < 97) {
      say("start over");
      for (const { key } of list) this.promises.delete(key);
      await this.ask(window, "camplot.boards.forgetAll().then(() => 0)");
      await this.driver.reload(window);
    } else if (this.windows.length < 3) {
      say("another window");
      await this.open();
    }
    await this.check();
  }

  async drop(window) {
    const text = gerber(...Array.from({ length: 2 + this.at(4) }, (_, at) => `X${at * 2000000}Y0D03*`)).toString();
    const name = this.of(["a.gtl", "b.gbl", "c.gto"]);
    await this.ask(window, `(camplot.openFiles([{ name: ${JSON.stringify(name)}, bytes: new TextEncoder().encode(${JSON.stringify(text)}) }]), 0)`);
  }
}

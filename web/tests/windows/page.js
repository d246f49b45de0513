// The page in a window of the model: its machine, its journal and its boards as they are, beside a model of the station in each worker.

import { Boards } from "../../page/boards.js";
import { Runner } from "../../page/runner.js";
import { looksOfState } from "../../machine/keeping.js";
import { ModelStation } from "../model.js";
import { ModelWindow } from "./browser.js";
import { titleOf } from "../../board/board_names.js";

const NOTHING = ["fit", "go", "seek", "copy link", "view", "look", "copy", "show picked", "put picture"];
const HANDED = ["give view", "give svg", "give print", "download", "script"];

// A worker with a station; it answers in its time.
class ModelLink {
  constructor(page, stopped) {
    Object.assign(this, { page, stopped, station: new ModelStation(), isOver: false });
  }

  send(message) {
    if (this.isOver || !message.number) return;
    this.page.window.task(`worker ${this.page.links.indexOf(this)}`, () => {
      if (this.isOver) return;
      const answer = this.station.answer(message);
      if (this.page.machine.link === this) this.page.machine.send({ kind: "answer", number: message.number, answer });
    });
  }

  end(why) {
    if (this.isOver) return;
    this.isOver = true;
    this.stopped(why);
  }
}

export class ModelPage {
  constructor(browser, session = null) {
    this.browser = browser;
    this.window = new ModelWindow(browser, session);
    this.links = [];
    this.isReady = false;
    // Told the name of a board that a person closes.
    this.closed = () => {};
    // (a page of which nothing is left tells nobody)
    this.faults = [];
    const tasks = Object.fromEntries([...NOTHING.map((kind) => [kind, () => {}]), ...HANDED.map((kind) => [kind, ({ number }) =>
      this.window.task("page", () => this.machine.send({ kind: "answer", number, answer: { why: null } }))])]);
    this.machine = new Runner({ ...tasks,
      try: ({ refused }) => this.window.task("page", () => this.machine.send({ kind: "tried", refused, isAble: null })),
      start: () => this.machine.await(this.openStation().then(() => this.machine.send({ kind: "restarted" }),
        (fault) => this.machine.send({ kind: "stopped", why: fault.message }))),
      anew: () => this.boards.forgetAll().finally(() => this.reload()),
      "board closed": () => {
        this.closed(this.boards.shown.key);
        this.boards.left();
      },
    });
    this.boards = new Boards(this.machine, this.window.platform, { openStation: () => this.openStation(), keepLooks: () => this.keepLooks(),
      contents: () => null, changed: () => {}, seen: () => ({ left: 0, top: 0, pitch: 1, isMirrored: false, quarters: 0 }), show: () => {} });
    this.next = null;
    this.started = this.start();
    this.started.catch((fault) => this.faults.push(String(fault.stack)));
  }

  openStation() {
    const before = this.machine.link;
    this.machine.link = null;
    before?.end("opened again");
    const link = new ModelLink(this, (why) => {
      if (this.machine.link === link) this.machine.send({ kind: "stopped", why });
      else this.boards.happened((board) => board.link === link, { kind: "stopped", why });
    });
    this.links.push(link);
    this.machine.link = link;
    return new Promise((done, fail) => {
      this.window.task("page", () => link.isOver ? fail(new Error("it ended")) : done());
    });
  }

  keepLooks() {
    if (!this.machine.kept) return;
    this.boards.shown.title = titleOf(this.machine.state);
    this.machine.kept.keepLooks(looksOfState(this.machine.state)).then(() => this.machine.settle());
  }

  // As main.js begins.
  async start() {
    const { machine, boards } = this;
    this.words = await boards.open("", false);
    machine.kept = boards.shown.kept;
    machine.send({ kind: "begin", kept: await machine.kept.read(), contents: null });
    boards.tellLost();
    machine.panel(({ layers, grid }) => [layers, grid], () => this.keepLooks());
    machine.draw();
    try {
      await this.openStation();
      machine.send({ kind: "started" });
    } catch (fault) {
      machine.send({ kind: "stopped", why: fault.message });
    }
    await machine.begun();
    boards.begun();
    this.isReady = true;
  }

  kill() {
    this.window.kill();
  }

  // The page is loaded anew in its window.
  reload() {
    this.kill();
    this.next = new ModelPage(this.browser, this.window.session);
    return this.next;
  }

  get state() {
    return this.machine.state;
  }

  // The state of each board of the window that was shown.
  get states() {
    const { list, shown } = this.boards;
    return list.flatMap((board) => board === shown ? { board, state: this.state } : board.state ? { board, state: board.state } : []);
  }
}

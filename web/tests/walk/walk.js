// A walk at random: gestures from a seed, and after each the page beside the model and the program.

import { mkdtempSync, rmSync } from "node:fs";
import { join } from "node:path";
import { tmpdir } from "node:os";
import { WRITES, canBeEnded } from "../faults.js";
import { GESTURES, chosen, dropped } from "./gestures.js";
import { Model } from "./model.js";
import { Dropped, filesFor } from "./files.js";
import { ENDS } from "./ends.js";
import { Lines } from "./lines.js";
import { Tab } from "../tab.js";
import { Truth } from "./truth.js";
import { chances } from "../../../tools/tests/pictures.js";
import { itemsOf, judged, sameness } from "./judge.js";
import { pickedNow, rest, restAgain, scriptNow, seen } from "../seen.js";
import { press, toBoard } from "../hands.js";
import { layerTexts, saving, unzipped } from "../saving.js";

// So many seconds a gesture may take until the page is at rest.
const PATIENCE = 30;

export class Fault extends Error {
  constructor(faults, walk) {
    super(faults.join("\n  "));
    Object.assign(this, { faults, seed: walk.seed, gestures: walk.told });
  }
}

export class Walk {
  constructor(browser, seed, page) {
    this.chance = chances(seed);
    this.room = mkdtempSync(join(tmpdir(), "camplot-walk-"));
    Object.assign(this, { browser, seed, page, told: [], heard: () => {}, lines: new Lines(this.chance), dropped: new Dropped() });
    // Chances of a seed begin alike.
    for (let turn = 0; turn < 20; turn++) this.chance();
    this.files = filesFor(join(this.room, "made"));
    this.program = new Truth(join(this.room, "run"));
    this.isBroken = false;
  }

  async open(context = null, quota = null) {
    this.tab = await Tab.open(this.browser, { page: this.page, context, first: [WRITES], quota });
    await canBeEnded(this.tab);
    await (context ? restAgain : rest)(this.tab, PATIENCE);
  }

  async begin() {
    await this.open();
    this.forget();
    await this.look();
  }

  // Nothing is known of the document any more: it is read from the script.
  forget() {
    Object.assign(this, { model: new Model(), taken: 0, script: "", saved: { state: 0, texts: new Map(), isUnsure: false } });
  }

  // Reads what the page shows and has, and takes it into the model; what is so now, for the judge.
  async look() {
    const shown = await seen(this.tab), script = await scriptNow(this.tab);
    if (shown.question) return { ...this.state(), seen: shown, isAsking: true };
    if (this.program.lacks(script)) await this.takeFiles();
    const picked = await pickedNow(this.tab), truth = this.program.of(script);
    const changes = this.take(truth.lines.slice(this.taken));
    this.taken = truth.lines.length;
    Object.assign(this, { seen: shown, script, picked, truth });
    return { ...this.state(), changes };
  }

  state() {
    const { seen: shown, script, picked, truth, saved, isBroken } = this;
    return { seen: shown, script, picked, truth, model: this.frozen(), saved: { ...saved }, isBroken, complaints: this.tab.complaints() };
  }

  // The model as it is now: what is in it is replaced by a line, and not changed.
  frozen() {
    return Object.assign(new Model(), this.model);
  }

  take(lines) {
    return lines.map(({ line, reply, refused }) => {
      if (refused !== null) return { line, isRefused: true, verb: "", touched: [], fresh: [] };
      const isSaved = this.saved.state === this.model.state;
      const change = this.model.take(line, reply);
      if (change.verb === "load" && isSaved) this.saved.state = this.model.state;
      return { line, isRefused: false, ...change };
    });
  }

  // The files of the saved script are those that were dropped, or what they were converted to.
  async takeFiles() {
    const { bytes } = await saving(this.tab, () => press(this.tab, "[data-act=save-script]"), this.room);
    for (const [name, file] of unzipped(bytes)) if (name.startsWith("files/")) this.program.add(name, file);
  }

  async gesture(list = GESTURES) {
    const { question } = this.seen;
    if (question) return this.answered(question);
    if (!this.seen.layers.length && this.chance() < 0.7) return dropped(this);
    return (this.chance() < 0.07 ? chosen(this.chance, ENDS) : chosen(this.chance, list))(this);
  }

  answered({ title, answers }) {
    const open = answers.map(({ isOff }, at) => isOff ? -1 : at).filter((at) => at >= 0);
    const at = this.chance() < 0.2 || !open.length ? -1 : open[Math.floor(this.chance() * open.length)];
    return { kind: "open", words: `'${title}': ${at < 0 ? "Escape" : answers[at].words}`,
      act: () => at < 0 ? this.tab.key("Escape") : press(this.tab, "#question-choices button", at) };
  }

  async step() {
    const gesture = await this.gesture();
    this.told.push(gesture.words);
    this.heard(`${this.told.length}. ${gesture.words}`);
    const before = this.before ?? this.state();
    if (gesture.paths) this.dropped.add(gesture.paths);
    if (!this.seen.question) await toBoard(this.tab);
    await gesture.act(gesture);
    if (gesture.isJudged) return;
    await rest(this.tab, PATIENCE);
    const after = await this.look();
    // While a question is open nothing else is done; what came of it is judged when it is answered.
    if (after.isAsking) {
      this.seen = after.seen;
      this.before = { ...before, isCut: true };
      return;
    }
    const kind = this.before ? "many" : gesture.kind;
    this.before = null;
    // What a gesture saves is saved when it is judged.
    const more = await this.more(before, gesture, after);
    this.check([...judged(before, { ...gesture, kind }, { ...after, saved: { ...this.saved } }), ...more]);
  }

  check(faults) {
    if (faults.length) throw new Fault(faults, this);
  }

  async more(before, gesture, after) {
    if (gesture.saves && gesture.file) return this.judgeSaved(gesture, after);
    if (gesture.compares && after.seen.compared) return this.judgeCompared(gesture.compares, after);
    return [];
  }

  async judgeSaved({ saves, file }, { truth }) {
    if (saves === "all") {
      const files = await layerTexts(this.tab, file.bytes);
      this.saved = { state: this.model.state, texts: new Map([...truth.layers].map(([name, { text }]) => [name, text])), isUnsure: false };
      const wrong = [...truth.layers].filter(([name, { text }]) => files.get(name)?.toString("latin1") !== text).map(([name]) => name);
      return wrong.length ? [`the saved text of ${wrong} is not the program's`] : [];
    }
    const files = unzipped(file.bytes), isSame = files.get("script").toString("latin1") === this.script;
    return isSame ? [] : ["the saved script is not the page's"];
  }

  async judgeCompared({ back, two }, { truth, seen: shown }) {
    const labels = new Map(shown.layers.map(({ name, label }) => [name, label]));
    if (back) {
      const then = this.program.of(this.script + "undo\n".repeat(back));
      return then.faults.length ? [] : sameness(shown.compared, then.layers, truth.layers, labels);
    }
    const pair = JSON.parse(await this.tab.ask("JSON.stringify(['first', 'second'].map((id) => document.getElementById(id).value))"));
    const [first, other] = pair.map((name) => truth.layers.get(name));
    if (!two || !first || !other) return [];
    const bare = ({ text }) => text.replace(/%TF[^%]*%\n?/g, "");
    const isSaidSame = /the same/.test(shown.compared) && !/differ/.test(shown.compared);
    return isSaidSame && bare(first) !== bare(other) ? [`it says '${shown.compared}' of ${pair}, which differ`] : [];
  }

  // Walks so many gestures, or until so many ms since 1970; how many were made.
  async run(gestures, until = Infinity) {
    await this.begin();
    try {
      while (this.told.length < gestures && Date.now() < until) await this.step();
    } catch (fault) {
      throw fault instanceof Fault ? fault : new Fault([fault.message], this);
    } finally {
      await this.tab.close();
      await this.tab.forget();
      this.browser.events.length = 0;
      rmSync(this.room, { recursive: true, force: true });
    }
    return this.told.length;
  }

  pickedItems() {
    return itemsOf(this.model, this.picked);
  }
}

// The machine with what stands around it, for pages that are left at any moment: what is written, and what is answered of it, come
// at times of their own, and so do the tries of refused files and how the page looks.

import assert from "node:assert/strict";
import { looksOfState } from "../machine/keeping.js";
import { World, bytesOf, gerber } from "./world.js";

// A board that a tool put into the page.
export const boardInside = () => ({
  files: [{ name: "a.gtl", bytes: gerber(4) }], window: "window 0 0 1000 16 16",
  lines: [{ line: "load top-copper gerber files/one.gbr", bytes: gerber(5) }, { line: "load bottom-copper gerber files/two.gbr", bytes: gerber(6) },
    { line: "window 0 0 1000 16 16" }, { line: "move top-copper 1 77 0" }, { line: "move bottom-copper 1 78 0" }],
  pictures: [{ name: "inside.pbm", layer: "top-copper", window: "window 0 0 1000 8 2", bytes: new Uint8Array([...bytesOf("P4\n8 2\n"), 170, 85]) }],
});

/** @param {Machine.Told} entry */
const isLoaded = ({ file, reply }) => file !== undefined && reply.startsWith("ok");

const OPENING = ["load", "picture"];

// Where each file of a state is: so often as a layer, on its way, refused, and as a picture.
function placesOf({ told, queue, work, refused, opened }) {
  const places = new Map();
  const add = (files, kind) => {
    for (const file of files) places.set(file, [...places.get(file) ?? [], kind]);
  };
  add(told.filter(isLoaded).map(({ file }) => file), "loaded");
  add(queue.filter(({ kind }) => OPENING.includes(kind)).map(({ file }) => file), "waiting");
  const isAnswered = work && ["settling", "kept"].includes(work.stage), isTaken = isAnswered && (work.isSeen || !work.left?.isWell);
  if (work && OPENING.includes(work.gesture.kind) && !isTaken) add([work.gesture.file], "waiting");
  add(refused.map(({ file }) => file), "refused");
  add(opened.map(({ file }) => file), "shown");
  return places;
}

// The refused files about which a person has decided by this event, or that go with a station: nobody is asked about them any more.
function settledBy({ kind, refused, question: number, value, made = [] }, { questions, queue, work }) {
  const onWay = [work?.gesture, ...queue].flatMap((gesture) => gesture?.refused ?? []);
  if (kind === "offer" || kind === "offerAll") return [refused].flat();
  if (kind === "stopped" || kind === "openAgain") return [work?.gesture.refused ?? []].flat();
  if (kind !== "replied") return [];
  const question = questions.find(({ id }) => id === number), asked = [question.refused ?? []].flat();
  if (question.kind === "history") return value === "yes" ? [] : onWay;
  const taken = value !== "yes" ? [] : question.kind === "convert" ? asked : made.map(({ id }) => id);
  return asked.filter((id) => !taken.includes(id));
}

export class LeftWorld extends World {
  open() {
    this.tries = [];
    this.isStarting = true;
    this.isRestarting = false;
    super.open();
    this.inbox.written = [];
  }

  anew() {
    // Refused files that a person was asked about and answered, or chose.
    this.settled = new Set();
    super.anew();
    this.start();
  }

  // (it comes when its time comes)
  start() {
    if (!this.isStarting || !this.inbox.written) return;
    this.isStarting = false;
    super.start();
  }

  event(event) {
    const before = this.state, places = placesOf(before), { length } = this.starts ?? [];
    for (const id of settledBy(event, before)) this.settled.add(id);
    this.starts = [];
    super.event(event);
    if (this.chance() < 0.3 && event.kind !== "begin") this.journal.looks = looksOfState(this.state);
    if (event.kind !== "begin") this.checkFiles(event, before, places, length);
  }

  page(message) {
    super.page(message);
    if (message.kind !== "start") return;
    // (what the station before was asked is not answered)
    this.starts.push(message);
    this.isAlive = false;
    this.inbox.worker = [];
  }

  // No file goes away but by what a person says, and with a layer or a station that goes.
  checkFiles(event, before, places) {
    const now = placesOf(this.state), { gesture } = before.work ?? {};
    if (event.kind === "replied" || this.starts.length && event.kind !== "openAgain") return;
    const replaced = before.refused.find(({ id }) => id === gesture?.refused)?.file;
    for (const file of places.keys()) {
      if (now.has(file) || file === replaced || gesture?.refused && gesture.file === file) continue;
      if (event.kind === "stopped" && gesture?.file === file && before.work.stage !== "asking") {
        const { openings, said } = this.state, { faults } = openings[gesture.opening] ?? { faults: [said.text] };
        assert.match(faults.join(" "), /was not opened: the station stopped/);
        continue;
      }
      assert.fail(`${file} is gone after ${JSON.stringify(event.kind)}: ${places.get(file)}`);
    }
  }

  // One of the answers that are due.
  deliver() {
    const { worker, kept, written, page } = this.inbox;
    const due = [...this.isAlive && worker.length ? ["worker"] : [], ...kept.length ? ["kept"] : [], ...written.length ? ["written"] : [],
      ...page.length ? ["page"] : [], ...this.tries.length ? ["tries"] : [], ...this.isStarting || this.isRestarting ? ["start"] : []];
    if (!due.length) return false;
    const where = due[Math.floor(this.chance() * due.length)];
    if (where === "kept") this.write(kept.shift());
    else if (where === "written") this.answered(written.shift());
    else if (where === "tries") this.tell(this.tries.splice(Math.floor(this.chance() * this.tries.length), 1)[0]);
    else if (where === "start") this.begin();
    else super.deliver(where);
    return true;
  }

  begin() {
    if (this.isStarting) return this.start();
    return this.attend();
  }

  write(message) {
    const answer = this.journal.write(message);
    if (message.kind === "anew" && answer.isKept) this.journal.looks = null;
    this.inbox.written.push({ isAnew: message.kind === "anew", number: message.number, ...answer });
  }

  // (how it looks is written again with all that is kept anew)
  answered({ isAnew, ...answer }) {
    if (isAnew && answer.isKept) this.journal.looks = looksOfState(this.state);
    this.event({ kind: "kept", ...answer });
  }

  // What comes of a refused file that is tried: the same whenever it is.
  tell(refused) {
    this.event({ kind: "tried", refused, why: "", ...[{ isAble: null }, { isAble: true }, { isAble: true }, { isAble: false, asks: ["unit"] }][refused % 4] });
  }

  rest() {
    for (let turn = 0; turn < 10000 && this.deliver(); turn++);
  }

  // What a page had that is left: what was kept of it, and where its files were.
  left() {
    const { state, journal } = this;
    // (the page is opened again where what it kept was deleted)
    journal.isLost = false;
    this.isKnown = false;
    return { told: journal.told.slice(), files: new Set(journal.files.keys()), places: placesOf(state) };
  }

  checkBegun({ files, places }) {
    const now = placesOf(this.state);
    for (const [file, kinds] of places) {
      // (a picture of the board inside comes with that)
      if (files.has(file) && !file.startsWith("inside")) assert.ok(now.has(file), `${file} was ${kinds}, and is gone with the page`);
    }
    this.checkOnce();
  }

  // Nothing is loaded twice, asked twice, or in two places.
  checkOnce() {
    const places = placesOf(this.state), { pictures = [] } = this.contents ?? {};
    for (const [file, kinds] of places) assert.equal(kinds.length, 1, `${file} is ${kinds}`);
    assert.ok([...places.keys()].filter((file) => file.startsWith("inside")).length <= pictures.length, "a picture inside is there twice");
    const asked = this.state.questions.flatMap(({ refused }) => refused ?? []);
    assert.equal(new Set(asked).size, asked.length, `asked twice: ${asked}`);
    for (const id of asked) assert.ok(this.state.refused.some((entry) => entry.id === id), `${id} is asked about, and not there`);
  }

  check() {
    if (this.isStarting) return;
    super.check();
    this.checkOnce();
  }

  checkRested({ told }) {
    const { state } = this, { refused, questions, openings, queue, work } = state;
    if (!this.isAlive || work || queue.length) return;
    assert.deepEqual(state.spoiled, [], "lines that were kept are refused");
    assert.deepEqual(state.told.slice(0, told.length), told, "lines that were kept are not there");
    assert.ok(!Object.values(openings).some(({ trying }) => trying > 0), "files are tried for ever");
    for (const { line, file, layer } of state.told.filter(isLoaded)) {
      const name = line.split(" ")[1], now = state.layers.find((other) => other.name === name);
      assert.equal(now?.file, layer.file, `${name}, of ${file}, has the name of another file`);
    }
    assert.ok(refused.every(({ layer }) => layer.fileName), "the board inside is refused");
    const groups = new Map();
    for (const { id, offer, opening, layer, note } of refused) {
      if (!offer?.isAble || note || this.settled.has(id)) continue;
      const question = questions.find((other) => [other.refused ?? []].flat().includes(id));
      assert.ok(question, `${id} can be converted, and nobody is asked`);
      const key = `${opening} ${layer.kind}`;
      assert.equal(groups.get(key) ?? question.id, question.id, `${key} is asked about in two questions`);
      groups.set(key, question.id);
    }
    for (const opening of Object.keys(openings)) {
      assert.ok(questions.some((question) => String(question.opening) === opening), `the opening ${opening} is never told of`);
    }
  }
}

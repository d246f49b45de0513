// The page is left at any moment, between any two answers: what the browser kept by then is what it has. Opened again, it owes
// a person each line that was kept, and each file: loaded once, waiting, refused and listed, or asked about. EVENTS and SEED
// choose how many events and which.

import assert from "node:assert/strict";
import { suite, test } from "../../tools/tests/harness.js";
import { chances } from "../../tools/tests/pictures.js";
import { firstState, isIdle } from "../machine/state.js";
import { step } from "../machine/step.js";
import { LeftWorld, boardInside } from "./left_world.js";
import { REFUSED, bytesOf, gerber, randomEvent } from "./world.js";

const EVENTS = Number(process.env.EVENTS ?? 1500);
// Seeds that once found something are kept.
const SEEDS = process.env.SEED ? [Number(process.env.SEED)] : [1, 2, 3, 4, 5, 6];

const REFUSED_DRILL = bytesOf("M48\nT1C1\n%\nrefused\nM30\n");
const PICTURE = new Uint8Array([...bytesOf("P4\n8 2\n"), 170, 85]);
const NAMES = ["a.gtl", "b.gbl", "c.gto", "d.drl"];

// Files of one drop: layers, refused ones of both kinds, and pictures.
const drop = (at) => Array.from({ length: 1 + at(5) }, (_, k) => {
  const name = NAMES[(k + at(4)) % 4], choice = at(6);
  if (choice === 0) return { name: `${name}.pbm`, bytes: PICTURE };
  if (choice < 4) return { name, bytes: name === "d.drl" ? REFUSED_DRILL : REFUSED };
  return { name: NAMES[at(3)], bytes: gerber(1 + at(12)) };
});

// What a person answers, or what the dialogue makes of it.
function reply(world, at, value) {
  const [question] = world.state.questions;
  const made = [question.refused ?? []].flat().filter(() => at(4)).map((id) => ({ id, bytes: at(6) ? gerber(3) : REFUSED }));
  world.event({ kind: "replied", question: question.id, value, bytes: gerber(3), made, window: "window 0 0 1000 8 2" });
}

function around(world, at) {
  switch (at(6)) {
    case 0:
      world.isAlive = world.isStarting = world.isRestarting = false;
      world.inbox.worker = [];
      return world.event({ kind: "stopped", why: "it ended" });
    case 1:
      world.journal.refusals = at(3);
      return undefined;
    case 2:
      if (at(2)) return undefined;
      world.journal.lose();
      return world.event({ kind: "lost", why: "deleted" });
    default:
      world.journal.refusals = 0;
      return undefined;
  }
}

// One thing that happens: a person does something, or an answer comes.
function happen(world, at) {
  const choice = at(100);
  if (choice < 8) return world.event({ kind: "open", files: drop(at), token: "t" });
  if (choice < 12) {
    const { refused } = world.state;
    if (refused.length) world.event({ kind: "offer", refused: refused[at(refused.length)].id });
    return undefined;
  }
  if (choice < 30) {
    const event = randomEvent(world, at);
    return event.gesture?.lines?.some((line) => line.startsWith("load")) ? undefined : world.event(event);
  }
  if (choice < 36 && world.state.questions.length) return reply(world, at, at(3) ? "yes" : "no");
  if (choice === 36) return around(world, at);
  if (choice === 37 && !world.isStarting && at(world.isAlive ? 4 : 1) === 0) return world.event({ kind: "openAgain" });
  if (choice === 38) return world.rest();
  if (choice === 39 && world.state.layers.length) {
    return world.event({ kind: "gesture", gesture: { kind: "close", name: world.state.layers[at(world.state.layers.length)].name } });
  }
  return world.deliver();
}

// What a page owes that is opened again: at once, and when it is at rest.
function leave(world, at) {
  const before = world.left();
  world.open();
  world.checkBegun(before);
  if (at(3)) return;
  for (let turn = 0; turn < 1000; turn++) {
    world.rest();
    if (world.state.questions[0]?.gesture === undefined) break;
    reply(world, at, "yes");
  }
  world.check();
  world.checkRested(before);
}

function walk(seed, count) {
  const chance = chances(seed), at = (below) => Math.floor(chance() * below);
  const world = new LeftWorld(chance, seed % 2 ? null : boardInside());
  for (let k = 0; k < count; k++) {
    if (at(25) === 0) leave(world, at);
    else happen(world, at);
    world.check();
    // A board that grew too long is left for another.
    if (world.state.told.length > 400 || world.state.layers.length > 20 || world.state.refused.length > 12) world.anew();
  }
  world.journal.refusals = 0;
  for (let turn = 0; turn < 1000 && (!isIdle(world.state) || world.state.questions.length || !world.isAlive); turn++) {
    if (!world.isAlive && !world.isStarting) world.event({ kind: "openAgain" });
    world.rest();
    if (world.state.questions.length) reply(world, at, "no");
  }
  world.rest();
  assert.ok(isIdle(world.state), "something waits for ever");
  assert.deepEqual(Object.keys(world.state.openings), [], "an opening is never told of");
}

suite("a page that is left at any moment", () => {
  for (const seed of SEEDS) test(`of the seed ${seed}`, () => walk(seed, EVENTS));
});

// The machine, event by event: what it is told, and what it sends.
class Machine {
  constructor(kept = { records: [], files: [], looks: null, waiting: null, why: null, isOpen: true }, contents = null) {
    this.state = firstState();
    this.sent = [];
    this.tell({ kind: "begin", kept, contents });
  }

  tell(event) {
    const { state, messages } = step(this.state, event);
    this.state = state;
    this.sent.push(...messages);
    return this;
  }

  answer(answer) {
    return this.tell({ kind: "answer", number: this.state.work.number, answer });
  }

  // The line under way is answered.
  line(reply = "ok 3") {
    return this.answer({ answers: [{ code: reply.startsWith("ok") ? 0 : 3, reply }] });
  }

  // The station is looked at.
  looked() {
    return this.answer({ layers: [], items: [], entries: {}, attributes: null, list: null });
  }

  kept(isKept = true) {
    return this.tell({ kind: "kept", number: this.state.work.number, isKept });
  }

  drop(...files) {
    return this.tell({ kind: "open", files, token: "t" });
  }

  // The last write, with what the browser has by it.
  get written() {
    const all = this.sent.filter(({ to }) => to === "kept"), { files, records, waiting } = all[all.length - 1];
    return { files: files.map(([id]) => id), lines: records.flat().map(({ line }) => line), waits: waiting?.gestures.map(({ kind, file }) => file ?? kind) };
  }

  get queued() {
    return this.state.queue.map(({ kind, file }) => file ?? kind);
  }
}

const REPLY = "refused 26";
const refusedFile = (id, more = {}) => ({ id, file: `given ${id}`, opening: 5, note: "", layer: { kind: "gerber", fileName: "a.gtl" }, reply: REPLY,
  isTried: true, offer: { isAble: true, why: "", asks: [] }, isAsked: false, ...more });
const pageOf = (refused, { records = [], gestures = [] } = {}) => ({ records, looks: null, why: null, isOpen: true,
  files: [["given 1", gerber(2)], ...refused.map(({ file }) => [file, REFUSED])], waiting: { gestures, pictures: [], next: 40, refused } });
const LOADED = [[{ line: "load top gerber files/a.gtl", reply: "ok 2", path: "files/a.gtl", file: "given 1" }]];
const asked = ({ state }) => state.questions.map(({ refused }) => [refused].flat());

suite("what a browser keeps is whole by itself", () => {
  test("a line of the board inside is not there and waits as well", () => {
    const machine = new Machine(undefined, boardInside()).tell({ kind: "started" }).kept();
    for (let turn = 0; machine.state.work.gesture.given === undefined; turn++) {
      if (machine.state.work.stage === "lines") machine.line().looked().kept();
      else if (machine.state.work.stage === "settling") machine.looked();
      else machine.answer({ boxes: [] });
    }
    const { file } = machine.state.work.gesture;
    const { lines, waits } = machine.line().written;
    assert.deepEqual([lines, waits.includes(file)], [["load top-copper gerber files/one.gbr"], false]);
  });

  test("what waits is kept with its files", () => {
    const machine = new Machine().drop({ name: "a.gtl", bytes: gerber(2) }).tell({ kind: "started" }).kept();
    machine.drop({ name: "b.gbl", bytes: gerber(3) }).line();
    const [id] = machine.state.queue.filter(({ kind }) => kind === "load").map(({ file }) => file);
    assert.ok(machine.written.waits.includes(id));
    assert.deepEqual(machine.written.files, [id]);
  });

  test("an answer holds for all files that it is about", () => {
    const machine = new Machine(pageOf([refusedFile(10, { isAsked: 7 }), refusedFile(11, { isAsked: 7 })])).tell({ kind: "started" });
    const [{ id }] = machine.state.questions, made = [10, 11].map((number) => ({ id: number, bytes: gerber(2) }));
    machine.tell({ kind: "replied", question: id, value: "yes", made });
    assert.deepEqual(machine.written.waits, [...machine.written.files, "opened"]);
    assert.equal(machine.written.files.length, 2);
  });

  test("what was deleted after it was written is not kept", () => {
    const machine = new Machine().drop({ name: "a.gtl", bytes: gerber(2) }).tell({ kind: "started" });
    machine.tell({ kind: "lost", why: "deleted" }).kept();
    assert.deepEqual([machine.state.kept.isLost, machine.state.kept.why], [true, "deleted"]);
    const again = new Machine().tell({ kind: "started" }).tell({ kind: "lost", why: "deleted" }).tell({ kind: "keepAgain" }).kept();
    assert.deepEqual([again.state.kept.isLost, again.state.kept.why], [false, null]);
  });
});

suite("what is done while a station begins or ends", () => {
  test("an answer before the station has begun comes behind what was kept", () => {
    const machine = new Machine(pageOf([refusedFile(10, { isAsked: 7 })], { records: LOADED }));
    machine.tell({ kind: "replied", question: machine.state.questions[0].id, value: "yes", bytes: gerber(2) });
    assert.deepEqual(machine.queued.filter((word) => !word.startsWith("given")), ["replay", "keep", "opened"]);
    machine.tell({ kind: "started" });
    assert.equal(machine.state.work.gesture.kind, "replay");
  });

  test("the script is played once where the first station did not start", () => {
    const machine = new Machine(pageOf([], { records: LOADED })).tell({ kind: "stopped", why: "no memory" });
    machine.tell({ kind: "openAgain" }).tell({ kind: "restarted" });
    assert.deepEqual([machine.state.work.gesture.kind, machine.queued.includes("replay")], ["replay", false]);
  });

  test("a file is opened by the station that a person asks for meanwhile, and an answer of the one before is none", () => {
    const machine = new Machine().drop({ name: "a.gtl", bytes: gerber(2) }).tell({ kind: "started" }).kept();
    const { number, gesture: { file } } = machine.state.work;
    machine.tell({ kind: "openAgain" }).tell({ kind: "answer", number, answer: { answers: [{ code: 0, reply: "ok 2" }] } });
    assert.deepEqual([machine.state.work, machine.queued[0], machine.state.station], [null, file, { isOpen: false, why: null }]);
    machine.tell({ kind: "restarted" });
    assert.equal(machine.state.work.gesture.file, file);
  });

  test("a file whose station stopped is told of", () => {
    const machine = new Machine().drop({ name: "a.gtl", bytes: gerber(2) }).tell({ kind: "started" }).kept();
    machine.tell({ kind: "stopped", why: "no memory" }).tell({ kind: "restarted" });
    while (machine.state.work?.stage === "kept") machine.kept();
    assert.match(machine.state.said.text, /a\.gtl was not opened: the station stopped \(no memory\)/);
  });
});

suite("a refused file that a person chose", () => {
  test("is not asked about once more when the others were tried", () => {
    const machine = new Machine(pageOf([refusedFile(10, { isAsked: true }), refusedFile(11, { isTried: false, offer: null })]));
    machine.tell({ kind: "offer", refused: 10 }).tell({ kind: "tried", refused: 11, isAble: true, why: "" });
    assert.deepEqual(asked(machine), [[10], [11]]);
  });

  test("is not asked about while what it was converted to is on its way", () => {
    const machine = new Machine(pageOf([refusedFile(10, { isAsked: 7 })])).tell({ kind: "started" });
    machine.tell({ kind: "replied", question: machine.state.questions[0].id, value: "yes", bytes: gerber(2) });
    machine.tell({ kind: "offer", refused: 10 });
    assert.deepEqual(asked(machine), []);
    machine.kept().tell({ kind: "offer", refused: 10 });
    assert.deepEqual(asked(machine), []);
  });
});

// The page as a machine, without a browser: events at random, next to a plain model of the station and of what a person
// picked. EVENTS and SEED choose how many and which.

import assert from "node:assert/strict";
import { suite, test } from "../../tools/tests/harness.js";
import { chances } from "../../tools/tests/pictures.js";
import { firstState, isIdle } from "../machine/state.js";
import { looksOfState } from "../machine/keeping.js";
import { step } from "../machine/step.js";
import { NAMES, REFUSED, World, gerber, randomEvent } from "./world.js";

const EVENTS = Number(process.env.EVENTS ?? 4000);
// Seeds that once found something are kept.
const SEEDS = process.env.SEED ? [Number(process.env.SEED)] : [1, 2, 3, 4, 5, 6, 7, 8];

// What happens around the machine: the station dies, what is kept is refused, deleted, or read again by a new page.
function accident(world, at) {
  switch (at(6)) {
    case 0:
      world.isAlive = false;
      world.inbox.worker = [];
      world.event({ kind: "stopped", why: "it ended" });
      break;
    case 1:
      world.journal.refusals = at(4);
      break;
    case 2:
      if (at(4) === 0) {
        world.journal.lose();
        world.event({ kind: "lost", why: "deleted" });
      }
      break;
    default:
      world.journal.refusals = 0;
  }
}

function reopened(world) {
  world.rest();
  const { state } = world, { isOpen, isLost, why } = state.kept;
  const isWhole = isOpen && !isLost && why === null && state.work === null && state.station.isOpen;
  const parts = ({ told, layers, refused, questions, unsaved, opened, queue }) => ({
    told, unsaved, layers: layers.map(({ name, label, items, shows }) => `${name} ${label} ${items} ${shows}`),
    refused: refused.map(({ file, reply, note }) => [file, reply, note]), opened: opened.length, queue: queue.length,
    questions: questions.map(({ kind }) => kind),
  });
  const before = parts(state);
  world.journal.looks = looksOfState(state);
  world.journal.isLost = false;
  world.isKnown &&= isWhole;
  world.open();
  world.rest();
  if (isWhole) assert.deepEqual(parts(world.state), before, "the page that is opened again is another");
}

function walk(seed, count) {
  const chance = chances(seed), at = (below) => Math.floor(chance() * below), world = new World(chance);
  world.event({ kind: "open", files: [{ name: "a.gtl", bytes: gerber(9) }, { name: "b.gbl", bytes: gerber(5) }], token: "t" });
  world.rest();
  for (let k = 0; k < count; k++) {
    const choice = at(100);
    if (choice < 45) world.event(randomEvent(world, at));
    else if (choice < 75) world.deliver("worker");
    else if (choice < 90) world.deliver("kept");
    else if (choice < 92) world.attend();
    else if (choice === 92 && at(8) === 0) accident(world, at);
    else if (choice === 93 && !world.isAlive) world.event({ kind: "openAgain" });
    else if (choice === 94 && world.state.questions.length) {
      const [question] = world.state.questions;
      const made = [question.refused ?? []].flat().filter(() => at(4)).map((id) => ({ id, bytes: at(6) ? gerber(3) : REFUSED }));
      world.event({ kind: "replied", question: question.id, value: at(3) ? "yes" : "no", bytes: gerber(3), made });
    } else if (choice === 95 && at(10) === 0) reopened(world);
    else if (choice === 96) world.deliver("page");
    else if (choice > 96) world.rest();
    world.check();
    // A board that grew too long is left for another.
    if (world.state.told.length > 3000 || world.state.layers.length > 20) {
      world.anew();
    }
  }
  world.journal.refusals = 0;
  for (let turn = 0; turn < 1000 && (!isIdle(world.state) || world.state.questions.length || !world.isAlive); turn++) {
    if (!world.isAlive) world.event({ kind: "openAgain" });
    world.rest();
    const [question] = world.state.questions;
    if (question) world.event({ kind: "replied", question: question.id, value: "no" });
  }
  world.rest();
  world.check();
  assert.ok(isIdle(world.state), "something waits for ever");
}

suite("events at random", () => {
  for (const seed of SEEDS) test(`of the seed ${seed}`, () => walk(seed, EVENTS));
});

// What the browser kept of two refused files of one opening: how far each was when the page was left.
const keptOf = (...parts) => ({
  records: [], looks: null, why: null, isOpen: true, files: parts.map((_, at) => [`given ${at}`, REFUSED]),
  waiting: { gestures: [], pictures: [], next: 20, refused: parts.map((part, at) => ({ id: 10 + at, file: `given ${at}`, opening: 5, note: "",
    layer: { kind: "gerber", fileName: NAMES[at] }, reply: "refused 26", ...part })) },
});
const UNTRIED = { isTried: false, offer: null, isAsked: false };
const TRIED = { isTried: true, offer: { isAble: true, why: "", asks: [] }, isAsked: true };

suite("a page that was left while refused files were tried", () => {
  const begun = (...parts) => step(firstState(), { kind: "begin", kept: keptOf(...parts), contents: null }).state;
  const told = ({ questions }) => questions.map(({ kind, refused }) => [kind, refused]);
  const all = [["convertAll", [10, 11]]];

  for (const [what, parts, refused] of [["the second", [TRIED, UNTRIED], 11], ["the first", [UNTRIED, TRIED], 10]]) {
    test(`asks about both at once when ${what} is tried too`, () => {
      const state = begun(...parts);
      assert.deepEqual(told(state), []);
      assert.deepEqual(told(step(state, { kind: "tried", refused, isAble: true, why: "" }).state), all);
    });
  }

  test("asks about both when both were tried, and as it asked before", () => {
    assert.deepEqual(told(begun(TRIED, TRIED)), all);
    assert.deepEqual(told(begun({ ...TRIED, isAsked: 7 }, { ...TRIED, isAsked: 7 })), all);
  });

  test("leaves out what cannot be converted", () => {
    const { state } = step(begun(TRIED, UNTRIED), { kind: "tried", refused: 11, isAble: null, why: "" });
    assert.deepEqual(told(state), [["convert", 10]]);
  });
});

suite("a file of the board that the page holds", () => {
  const kept = { records: [], files: [], looks: null, waiting: null, why: null, isOpen: false };
  const contents = { files: [], lines: [{ line: "load holes drill made/board.drl", bytes: REFUSED }], pictures: [] };

  test("that is refused keeps its name and its path in what it is converted to", () => {
    let { state } = step(step(firstState(), { kind: "begin", kept, contents }).state, { kind: "started" });
    state = step(state, { kind: "answer", number: state.work.number, answer: { answers: [{ code: 26, reply: "refused 26" }] } }).state;
    const [{ id, layer }] = state.refused;
    assert.deepEqual([layer.kind, layer.wanted, layer.label, layer.fileName], ["drill", "holes", "holes", "board.drl"]);
    state = step(state, { kind: "tried", refused: id, isAble: true }).state;
    const { lines } = step(state, { kind: "replied", question: state.questions[0].id, value: "yes", bytes: gerber(1) });
    assert.deepEqual(lines.lines.map(({ line }) => line), ["load holes drill files/board.drl"]);
  });
});

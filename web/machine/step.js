// The page as a machine: `step(state, event)` is the next state, with the lines that the station applies next and the
// messages to the worker, to what keeps, and to the page. It is pure, and knows nothing of the browser. Events are what a
// person does and what is answered; one comes after another.

import { breakOff } from "./loading.js";
import { conclude, open } from "./opening.js";
import { see } from "./settling.js";
import { unwritten, written } from "./keeping.js";
import { Turn } from "./turn.js";
import { begin } from "./beginning.js";
import { immediate } from "./immediate.js";
import { kinds } from "./kinds.js";

// (what a gesture's own kind does is never done with another gesture)
/** @param {Machine.Gesture} gesture */
const kindOf = ({ kind }) => /** @type {Machine.AnyKind} */ (/** @type {unknown} */ (kinds[kind]));

// A gesture ends when its lines are kept and what came of them was seen.
/** @param {Machine.Turn} turn */
function endIfSettled(turn) {
  const { work } = turn.state;
  if (work?.stage !== "settling" || !work.isSeen || !work.isKept) return;
  const { gesture, result, left } = work;
  if (kindOf(gesture).end?.(turn, gesture, left) === "more") return;
  if (turn.state.work) turn.finish(result);
}

// Begins the next gesture where none is under way.
/** @param {Machine.Turn} turn */
function goOn(turn) {
  for (let [next] = turn.state.queue; next && !turn.state.work && turn.state.station.isOpen; [next] = turn.state.queue) {
    const number = turn.number(), gesture = { id: number, ...next };
    turn.set({ queue: turn.state.queue.slice(1), work: { number, gesture, stage: "begun" } });
    attend(turn, () => kindOf(gesture).begin(turn, gesture));
  }
}

// Runs a part of a gesture, and what belongs to its end.
/** @param {Machine.Turn} turn @param {() => unknown} run */
function attend(turn, run) {
  const { gesture } = turn.underWay;
  run();
  if (turn.state.work) endIfSettled(turn);
  if (!turn.state.work) kindOf(gesture).finished?.(turn, gesture);
}

/** @param {Machine.State} state @param {{ number: number }} event */
const isOfWork = ({ work }, { number }) => work !== null && work.number === number;

// What the gesture under way does with what it waits for; where it waits for nothing, it does not hear it.
/** @param {Machine.Turn} turn @param {Machine.Work} work @param {Machine.Heard} answer */
const hear = (turn, work, answer) => kindOf(work.gesture).heard?.[work.stage]?.(turn, work.gesture, answer, work);

/** @param {Machine.Turn} turn @param {Machine.Events["answer"]} event */
function answered(turn, event) {
  if (!isOfWork(turn.state, event)) return;
  attend(turn, () => {
    const work = turn.underWay;
    if (work.stage === "settling") return see(turn, /** @type {Machine.Looked} */ (event.answer));
    return hear(turn, work, event.answer);
  });
}

/** @param {Machine.Turn} turn @param {Machine.Events["kept"]} event */
function kept(turn, event) {
  if (event.isKept) written(turn);
  else unwritten(turn, event);
  if (!isOfWork(turn.state, event)) return;
  attend(turn, () => {
    if (turn.underWay.stage === "kept") turn.finish();
    else turn.settling({ isKept: true });
  });
}

// A question is answered: the next one comes.
/** @param {Machine.Turn} turn @param {Machine.Replied} event */
function replied(turn, event) {
  const question = turn.state.questions.find(({ id }) => id === event.question);
  if (!question) return;
  turn.set({ questions: turn.state.questions.filter((other) => other !== question) });
  const { work } = turn.state;
  if (question.gesture !== undefined && work?.gesture.id === question.gesture) {
    attend(turn, () => hear(turn, work, event));
  } else {
    immediate.replied(turn, question, event);
  }
  if (question.opening !== undefined) conclude(turn, question.opening);
}

// The station stopped: what was accepted of the gesture under way stays, the rest of it is dropped.
/** @param {Machine.Turn} turn @param {Machine.Events["stopped"]} event */
function stopped(turn, { why }) {
  turn.set({ station: { isOpen: false, why } });
  const { work } = turn.state;
  if (!work) return;
  turn.set({ questions: turn.state.questions.filter(({ gesture }) => gesture === undefined || gesture !== work.gesture.id) });
  attend(turn, () => {
    if (work.stage === "settling" && !work.isSeen) see(turn, null);
    drop(turn);
    breakOff(turn, work, why);
  });
}

// Ends the gesture under way, but not before what it handed over to be kept is answered.
/** @param {Machine.Turn} turn */
function drop(turn) {
  const { work } = turn.state;
  if (!work || work.stage === "kept") return;
  if (work.stage === "settling" && !work.isKept) turn.work({ stage: "kept" });
  else turn.finish();
}

// Another station takes the place of this one, which answers nothing any more, and may be under way.
/** @param {Machine.Turn} turn */
function openAgain(turn) {
  stopped(turn, { why: null });
  turn.send({ to: "page", kind: "start" });
}

// Something in the page itself failed while a gesture was under way: it is dropped, and the others go on.
/** @param {Machine.Turn} turn @param {Machine.Events["broken"]} event */
function broken(turn, { why }) {
  const { faults, work } = turn.state;
  turn.set({ faults: [...faults.slice(-4), why] });
  if (work) drop(turn);
}

/** @type {Machine.Handlers<Machine.Events>} */
const events = {
  begin,
  gesture: (turn, { gesture }) => turn.last(gesture),
  open: (turn, event) => {
    const opening = open(turn, event);
    turn.send({ to: "page", kind: "named", token: event.token, opening });
  },
  answer: answered,
  kept,
  replied,
  stopped,
  openAgain,
  broken,
  ...immediate.events,
};

/** @param {Machine.State} state @param {Machine.Event} event */
export function step(state, event) {
  const turn = new Turn(state);
  const handle = /** @type {(turn: Machine.Turn, event: Machine.Event) => unknown} */ (events[event.kind]);
  handle(turn, event);
  goOn(turn);
  return { state: turn.state, lines: turn.lines, messages: turn.messages };
}

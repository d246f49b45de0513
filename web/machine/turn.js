// One turn of the machine: the state as it becomes, and what is to be sent. What it makes is handed out by `step`.

// (of the kind K is the gesture that is under way: a turn of which that is not known goes to no stage of a kind)
/** @template {Machine.Gesture["kind"]} [K=never] */
export class Turn {
  /** @param {Machine.State} state */
  constructor(state) {
    this.state = state;
    // The lines that the station applies next, as one message, and what else is sent.
    /** @type {Machine.Batch | null} */
    this.lines = null;
    /** @type {Machine.Message[]} */
    this.messages = [];
  }

  /** @param {Partial<Machine.State>} changes */
  set(changes) {
    this.state = { ...this.state, ...changes };
  }

  // A number that nothing else has.
  number() {
    const { next } = this.state;
    this.set({ next: next + 1 });
    return next;
  }

  /** @param {string} text */
  say(text, isFault = false) {
    this.set({ said: { text, isFault } });
  }

  /** @param {Machine.Message} message */
  send(message) {
    this.messages.push(message);
  }

  // What is under way: asked for by its own parts alone.
  get underWay() {
    const { work } = this.state;
    if (!work) throw new Error("nothing is under way");
    return work;
  }

  // What is under way is at another stage, with what is known there.
  /** @param {Machine.StageOf<K> | Machine.Settling | Machine.BeingKept} at */
  work(at) {
    const { number, gesture } = this.underWay;
    // (the gesture is of the kind whose stages these are)
    this.set({ work: /** @type {Machine.Work} */ ({ number, gesture, ...at }) });
  }

  // Changes what is known while it is settled.
  /** @param {{ isKept?: boolean, isSeen?: boolean, entries?: Machine.Told[] }} changes */
  settling(changes) {
    const { work } = this.state;
    if (work?.stage === "settling") this.set({ work: { ...work, ...changes } });
  }

  // Asks the worker, whose answer goes to the gesture that is under way at this stage.
  /** @param {Machine.StageOf<K>} at @param {Machine.ToWorker} message */
  ask(at, message) {
    if (!this.state.station.isOpen) return this.finish();
    this.work(at);
    return this.send({ to: "worker", number: this.underWay.number, ...message });
  }

  // Lines for the station: all of a group or none, or one after another until one is refused.
  /** @param {Machine.StageOf<K> & { stage: "lines", isGroup: boolean }} at @param {Machine.Sent[]} lines */
  apply(at, lines) {
    this.work(at);
    this.lines = { number: this.underWay.number, isGroup: at.isGroup, lines };
  }

  // Puts gestures before all that wait, but behind a replay: before that the station has nothing of the script.
  /** @param {Machine.Gesture[]} gestures */
  first(...gestures) {
    const { queue } = this.state, at = queue[0]?.kind === "replay" ? 1 : 0;
    this.set({ queue: [...queue.slice(0, at), ...gestures, ...queue.slice(at)] });
  }

  /** @param {Machine.Gesture[]} gestures */
  last(...gestures) {
    this.set({ queue: [...this.state.queue, ...gestures] });
  }

  /** @param {Machine.Question} question */
  question(question) {
    const id = this.number();
    this.set({ questions: [...this.state.questions, { id, ...question }] });
    return id;
  }

  // The gesture that is under way is done.
  /** @param {Machine.Result | null} result */
  finish(result = null) {
    const { gesture, number } = this.underWay;
    this.set({ work: null });
    this.send({ to: "page", kind: "finished", gesture: gesture.id ?? number, result });
  }
}

// The gestures that arrange what is picked, and that pick what is like it: their keys, their buttons, and the dialogue of an
// array.

import { button, element, field } from "./dom.js";
import { lengthIn, lengthText, wholeOf } from "../board/index.js";
import { act, actions, keyWords } from "./actions.js";
import { noLayer, nothingPicked } from "./reasons.js";

/** @param {string} turn @returns {Machine.Gesture} */
const turned = (turn) => ({ kind: "edit", verb: "turn", turn });
/** @param {Machine.Verbs["align"]["to"]} to @returns {Machine.Gesture} */
const aligned = (to) => ({ kind: "edit", verb: "align", to });

// Each gesture by its name: the words on its button, its label and key, and what it is.
/** @type {[id: string, words: string, label: string, key: string, gesture: Machine.Gesture][]} */
const GESTURES = [
  ["turn-left", "↺", "Turn a quarter counterclockwise", "r", turned("r90")],
  ["turn-right", "↻", "Turn a quarter clockwise", "Shift+r", turned("r270")],
  ["mirror", "⇄", "Mirror left and right", "y", turned("m0")],
  ["flip", "⇅", "Mirror top and bottom", "Shift+y", turned("m180")],
  ["align-left", "left", "Align the left edges", "Ctrl+ArrowLeft", aligned("left")],
  ["align-right", "right", "Align the right edges", "Ctrl+ArrowRight", aligned("right")],
  ["align-top", "top", "Align the upper edges", "Ctrl+ArrowUp", aligned("top")],
  ["align-bottom", "bottom", "Align the lower edges", "Ctrl+ArrowDown", aligned("bottom")],
  ["align-upright", "│", "Align the middles on an upright line", "i", aligned("upright")],
  ["align-level", "─", "Align the middles on a level line", "Shift+i", aligned("level")],
  ["like-entry", "aperture or tool", "Pick all of the same aperture or tool", "j", { kind: "pickLike", by: "entry" }],
  ["like-kind", "kind", "Pick all of the same kind", "Shift+j", { kind: "pickLike", by: "kind" }],
];

/** @param {Page.Runner} machine */
const askForArray = (machine) => machine.send({ kind: "ask",
  question: { kind: "array", of: machine.state.picked.map(({ id }) => id) } });

/** @param {Page.Parts} page */
export function nameArranging({ machine }) {
  for (const [id, , label, key, gesture] of GESTURES) act(id, "Arrange", label, [key], () => machine.gesture(gesture), nothingPicked);
  act("array", "Arrange", "Copies in columns and rows", ["k"], () => askForArray(machine), nothingPicked);
  act("whole-layer", "Arrange", "Move, turn or mirror the chosen layer, all of it", ["Shift+m"], () => {
    const { active } = machine.state;
    return active === null ? undefined : machine.gesture({ kind: "whole", name: active });
  }, noLayer);
}

/** @param {string} id @param {string} words */
function buttonOf(id, words) {
  const action = actions.find((one) => one.id === id);
  if (!action) throw new Error(`no action ${id}`);
  const { label, keys: [key = ""], run } = action;
  return button(words, run, { "data-act": id, "aria-label": label, title: `${label} (${keyWords(key)})`,
    "aria-keyshortcuts": key.replace("Ctrl", "Control") });
}

/** @param {string} label @param {HTMLElement[]} buttons */
const row = (label, ...buttons) => element("div", { className: "row", "data-row": label }, element("span", {}, label),
  element("div", { className: "buttons" }, ...buttons));

/** @param {string} does */
const buttonsOf = (does) => GESTURES.filter(([, , , , gesture]) => (gesture.kind === "edit" ? gesture.verb : gesture.kind) === does)
  .map(([id, words]) => buttonOf(id, words));

// The rows of buttons below what is picked.
/** @param {Machine.State} state */
export function arrangingRows({ picked }) {
  return [row("turn", ...buttonsOf("turn"), buttonOf("array", "array ..")),
    ...picked.length > 1 ? [row("align", ...buttonsOf("align"))] : [], row("all of this", ...buttonsOf("pickLike"))];
}

// The dialogue of an array: how many columns and rows, and how far one is from the next.
/** @param {Machine.State} state @returns {Page.Dialogue} */
export function arrayQuestion({ picked, unit }) {
  /** @param {string} value @param {string} label */
  const input = (value, label, properties = {}) => element("input", { type: "text", value, id: `array-${label}`, spellcheck: false,
    ...properties });
  const whole = { inputMode: "numeric" }, columns = input("2", "columns", whole), rows = input("1", "rows", whole);
  const dx = input(lengthText(1e6, unit), "dx"), dy = input(lengthText(1e6, unit), "dy");
  return {
    title: "Copies in columns and rows",
    parts: [element("p", {}, picked.length ? "What is picked is the first of them. The copies come behind the last item of "
      + "its layer." : "Nothing is picked to copy."),
    field("columns", columns), field(`to the right, ${unit}`, dx), field("rows", rows), field(`up, ${unit}`, dy)],
    choices: [["Copy", "yes"], ["Cancel", "no"]],
    // (the machine says what of it is no number)
    answer: () => ({ columns: wholeOf(columns.value) ?? NaN, rows: wholeOf(rows.value) ?? NaN, dx: lengthIn(dx.value, unit) ?? NaN,
      dy: lengthIn(dy.value, unit) ?? NaN }),
  };
}

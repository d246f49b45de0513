// What is asked: the first question of the state, in a dialogue. The next one waits behind it.

import { arrayQuestion } from "./arranging.js";
import { button, byId, element, field } from "./dom.js";
import { lengthIn, lengthText, plural } from "../board/index.js";
import { convertQuestion } from "./refused_files.js";
import { convertAllQuestion } from "./refused_groups.js";
import { giveQuestion } from "./giving.js";
import { goQuestion } from "./going.js";
import { shownLayers } from "../machine/index.js";
import { wholeQuestion } from "./layer_move.js";

// Where a picture lies that is of no window the page knows of.
/** @param {Machine.State} state @param {Machine.QuestionOf<"place">} question @returns {Page.Dialogue} */
function placeQuestion(state, { label, width, height, box }) {
  const { unit } = state, pitch = Math.max(1, Math.ceil(Math.max((box.right - box.left) / width, (box.high - box.low) / height)));
  /** @param {number} value */
  const input = (value) => element("input", { type: "text", value: lengthText(Math.round(value), unit) });
  const inputs = { left: input(box.left), low: input(box.low), side: input(pitch) };
  return {
    title: `Where does ${label} lie?`,
    parts: [element("p", {}, `It has ${width} by ${height} pixels, and no window of the script has.`),
      field(`left edge, ${unit}`, inputs.left), field(`lower edge, ${unit}`, inputs.low), field(`${unit} a pixel`, inputs.side)],
    choices: [["Open it there", "yes"], ["Leave it out", "no"]],
    answer: () => {
      const left = lengthIn(inputs.left.value, unit), low = lengthIn(inputs.low.value, unit), side = lengthIn(inputs.side.value, unit);
      const isWell = left !== null && low !== null && side !== null && side >= 1;
      return { window: isWell ? `window ${left} ${low} ${side} ${width} ${height}` : null,
        why: `its place and its pixels are numbers of ${unit}` };
    },
  };
}

/** @param {Machine.State} state @param {Machine.QuestionOf<"history">} question @returns {Page.Dialogue} */
const historyQuestion = (state, { steps }) => ({
  title: "Open files, and forget what can be undone?",
  parts: [element("p", {}, `Opening a file empties the list of what can be undone and redone: ${plural(steps, "step")}. `
    + "What these steps did stays.")],
  choices: [["Leave the files closed", "no"], ["Open them", "yes"]],
});

/** @param {Machine.State} state @returns {Page.Dialogue} */
function plotQuestion(state) {
  const { active, layers, unit: length } = state;
  const which = element("select", {}, element("option", { value: "active" }, `the layer ${active}`),
    element("option", { value: "shown" }, "each shown layer"));
  const form = element("select", {}, element("option", { value: "png" }, "PNG"), element("option", { value: "pbm" }, "PBM"));
  const dots = element("input", { type: "text", value: "1000", inputMode: "decimal" });
  const unit = element("select", {}, element("option", { value: "dpi" }, "dots an inch"),
    element("option", { value: "pitch" }, `${length} a pixel`));
  return {
    title: "Save a plot",
    parts: [field("of", which), field("as", form), element("div", { className: "row" }, field("with", dots), unit)],
    choices: [["Save", "yes"], ["Cancel", "no"]],
    answer: () => {
      const number = Number(dots.value.replace(",", "."));
      const pitch = unit.value === "dpi" ? Math.round(25.4e6 / number) : lengthIn(dots.value, length);
      const why = pitch !== null && pitch >= 1 && pitch <= 1e8 ? null : `The dots an inch, or the ${length} a pixel, are not a usable number.`;
      const chosen = which.value === "active" ? layers.filter(({ name }) => name === active) : shownLayers(state);
      return { names: chosen.map(({ name }) => name), ...pitch === null ? {} : { pitch }, form: form.value, why };
    },
  };
}

/** @returns {Page.Dialogue} */
const anewQuestion = () => ({
  title: "Start over?", parts: [element("p", {},
    "All boards and layers are closed, and what this page keeps of them in the browser is deleted. What you saved stays.")],
  choices: [["Keep working", "no"], ["Start over", "yes"]],
});

const LOST = "What was done to it is in no file yet, and cannot be undone then.";

/** @param {Machine.State} state @param {Machine.QuestionOf<"close">} question @returns {Page.Dialogue} */
const closeQuestion = (state, { label, unsaved }) => ({
  title: `Close ${label}?`,
  parts: [element("p", {}, `It has ${plural(unsaved, "change")} that ${unsaved === 1 ? "is" : "are"} not saved. ${LOST}`)],
  choices: [["Leave it open", "no"], ["Close it", "yes"]],
});

/** @param {Machine.State} state @param {Machine.QuestionOf<"closeAll">} question @returns {Page.Dialogue} */
const closeAllQuestion = (state, { unsaved, count }) => ({
  title: "Close the board?",
  parts: [element("p", {}, `It has ${plural(count, "layer")}, and ${plural(unsaved, "change")} that ${
    unsaved === 1 ? "is" : "are"} not saved. ${LOST}`)],
  choices: [["Leave it open", "no"], ["Close it", "yes"]],
});

/** @type {{ [K in keyof Machine.Questions]: (state: Machine.State, question: Machine.QuestionOf<K>, allow: Page.Allow) => Page.Dialogue }} */
const kinds = { place: placeQuestion, history: historyQuestion, plot: plotQuestion, anew: anewQuestion, array: arrayQuestion,
  convert: convertQuestion, convertAll: convertAllQuestion, close: closeQuestion, closeAll: closeAllQuestion, go: goQuestion,
  give: giveQuestion, whole: wholeQuestion };

// Allows the first answer, or not. It has the focus as soon as it is allowed, unless a person is somewhere else by then.
/** @param {HTMLElement} choices @param {boolean} isAllowed */
function allow(choices, isAllowed) {
  const first = choices.querySelector("button"), { activeElement: focused } = document;
  if (!first) return;
  first.disabled = !isAllowed;
  if (isAllowed && (!focused?.closest("dialog") || choices.contains(focused) || focused.tagName === "DIALOG")) first.focus();
}

/** @param {Page.Runner} machine */
export function listenToQuestions(machine) {
  const dialogue = byId("question");
  // The question that is shown, and its answer.
  /** @type {number | null} */
  let shown = null;
  /** @type {Page.Dialogue | null} */
  let made = null;

  dialogue.onclose = () => {
    if (shown === null || dialogue.open) return;
    const question = shown, value = dialogue.returnValue || null, answer = value === "yes" ? made?.answer?.() ?? {} : {};
    made?.end?.();
    shown = made = null;
    machine.send({ kind: "replied", question, value, ...answer });
    show(machine.state);
  };

  /** @param {Machine.State} state */
  function show(state) {
    const [question] = state.questions, id = question?.id ?? null;
    if (shown === id) return;
    if (shown !== null) {
      made?.end?.();
      shown = null;
      dialogue.close();
    }
    if (!question) return;
    shown = id;
    const choices = byId("question-choices");
    let isAllowed = true;
    const make = /** @type {(state: Machine.State, question: Machine.Question, allow: Page.Allow) => Page.Dialogue} */ (kinds[question.kind]);
    made = make(state, question, (allowed) => {
      isAllowed = allowed;
      if (shown === id && dialogue.open) allow(choices, isAllowed);
    });
    byId("question-title").textContent = made.title;
    byId("question-body").replaceChildren(...made.parts);
    choices.replaceChildren(...made.choices.map(([label, value], at) =>
      button(label, () => dialogue.close(value), at === 0 ? { className: "chosen", autofocus: true } : {})));
    dialogue.returnValue = "";
    dialogue.showModal();
    allow(choices, isAllowed);
  }

  machine.panel(({ questions }) => [questions[0]], show);
}

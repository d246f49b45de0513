// What the page can do by a name: one table, from which the buttons, the keys and the page of keys are made.

import { allOf, byId, element, oneOf } from "./dom.js";
import { iconOf } from "./icons.js";

/** @type {Page.Action[]} */
export const actions = [];

// `keys` are as KeyboardEvent.key has them, with Ctrl+ and Shift+ in front; the first is shown on the button. `why` says why it
// cannot be done now, or null where it can; its icon stands in icons.js by its id.
/**
 * @param {string} id
 * @param {string} group
 * @param {string} label
 * @param {string[]} keys
 * @param {Page.Action["run"]} run
 * @param {Page.Action["why"]} [why]
 */
export function act(id, group, label, keys, run, why) {
  actions.push({ id, group, label, keys, run, why, word: "" });
}

// The groups in the order in which they are listed; others come after them.
const GROUPS = ["Files", "Edit", "Arrange", "Tools", "View"];
/** @param {Page.Action} action */
export const groupAt = ({ group }) => GROUPS.includes(group) ? GROUPS.indexOf(group) : GROUPS.length;

/** @type {Record<string, string>} */
const named = { " ": "Space", "ArrowLeft": "←", "ArrowRight": "→", "ArrowUp": "↑", "ArrowDown": "↓" };
/** @param {string} part */
const partWords = (part) => named[part] ?? (part.length === 1 ? part.toUpperCase() : part);
/** @param {string} key */
export const keyWords = (key) => key === "+" ? key : key.split("+").map(partWords).join(" ");

/** @param {KeyboardEvent} event */
function keyOf(event) {
  const isLetter = event.key.length === 1;
  const parts = [];
  if (event.ctrlKey || event.metaKey) parts.push("Ctrl");
  if (event.shiftKey && (!isLetter || /[a-z]/i.test(event.key))) parts.push("Shift");
  parts.push(isLetter ? event.key.toLowerCase() : event.key);
  return parts.join("+");
}

const PRESSED = [" ", "Enter"];
const SLID = ["ArrowLeft", "ArrowRight", "ArrowUp", "ArrowDown", "PageUp", "PageDown", "Home", "End"];
const PRESSABLE = "button, summary, input:is([type=checkbox], [type=color], [type=file])";

/** @param {HTMLElement & { type?: string }} control */
const isTyping = (control) => /^(INPUT|SELECT|TEXTAREA)$/.test(control.tagName)
  && !["checkbox", "color", "range", "button", "file"].includes(control.type ?? "");

// Whether the control that has the focus has a use for a key: Space and Enter press it, and the others move a slider, or
// scroll a list.
/** @param {HTMLElement} control @param {KeyboardEvent} event */
function isOfControl(control, { key, ctrlKey, metaKey }) {
  if (isTyping(control)) return true;
  if (ctrlKey || metaKey || control === document.body || control.id === "marks") return false;
  return control.matches(PRESSABLE) ? PRESSED.includes(key) : SLID.includes(key);
}

const isTextPicked = () => String(document.getSelection()) !== "";

// Runs the action of a key where it has one.
/** @param {KeyboardEvent} event */
function runKey(event) {
  const key = keyOf(event), found = actions.find((action) => action.keys.includes(key));
  if (!found || found.id === "copy" && isTextPicked()) return;
  event.preventDefault();
  found.run(event);
}

// Whether the button of a command stands as pressed.
/** @param {string} id @param {boolean} isPressed */
export const press = (id, isPressed) => oneOf(`[data-act=${id}]`, HTMLElement).setAttribute("aria-pressed", String(isPressed));

export function listenToKeys() {
  document.addEventListener("keydown", (event) => {
    const { key } = event, target = /** @type {HTMLInputElement} */ (event.target);
    if (event.altKey || event.isComposing || document.querySelector("dialog[open]")) return undefined;
    // (it types nothing, and the browser's own meaning of it in a field leads out of the page)
    if (keyOf(event) === "Ctrl+k") return runKey(event);
    // It leaves a field, and lets go of nothing else.
    if (key === "Escape" && isTyping(target)) return byId("marks").focus({ preventScroll: true });
    if (!isOfControl(target, event)) return runKey(event);
    // (a browser presses a checkbox by Space alone)
    if (key === "Enter" && target.type === "checkbox") target.click();
    return undefined;
  });
}

/** @param {Page.Action} action */
const titleOf = ({ label, keys: [key] }) => key ? `${label} (${keyWords(key)})` : label;

// The icon of a button stands before its word, or above it.
/** @param {HTMLElement} found @param {string} word */
function putIcon(found, word) {
  const icon = word ? iconOf(found.dataset.act ?? "") : null;
  if (!icon) return;
  found.replaceChildren(icon, element("span", { className: "word" }, word));
  found.classList.add("command");
}

// The buttons of the page: each names its action.
export function listenToButtons() {
  for (const found of allOf("button[data-act]", HTMLElement)) {
    const action = actions.find(({ id }) => id === found.dataset.act);
    if (!action) throw new Error(`no action ${found.dataset.act}`);
    found.onclick = (event) => action.run(event);
    found.title = titleOf(action);
    // (its name has the words that it shows: a person who speaks says these)
    const shown = (found.textContent ?? "").trim(), isSaid = action.label.toLowerCase().includes(shown.toLowerCase());
    found.setAttribute("aria-label", isSaid ? action.label : `${shown}: ${action.label}`);
    if (action.keys[0]) found.setAttribute("aria-keyshortcuts", action.keys[0].replace("Ctrl", "Control"));
    action.word ||= shown;
    putIcon(found, shown);
  }
}

// The buttons of what cannot be done now are grey, and say why.
/** @param {Page.Runner} machine */
export function listenToAble(machine) {
  const able = actions.filter(({ why }) => why).map((action) => ({ action,
    buttons: allOf(`button[data-act=${action.id}]`, HTMLElement) }));
  machine.panel((state) => able.map(({ action }) => action.why?.(state)), (state) => {
    for (const { action, buttons } of able) {
      const why = action.why?.(state) ?? null;
      for (const found of buttons) {
        found.setAttribute("aria-disabled", String(why !== null));
        found.title = why ?? titleOf(action);
        if (why) found.setAttribute("aria-description", why);
        else found.removeAttribute("aria-description");
      }
    }
  });
}

export function showKeys() {
  /** @type {Map<string, Page.Action[]>} */
  const groups = new Map();
  for (const action of [...actions].sort((one, other) => groupAt(one) - groupAt(other))) {
    if (!action.keys.length) continue;
    groups.set(action.group, [...groups.get(action.group) ?? [], action]);
  }
  const parts = [...groups].map(([group, list]) => element("section", {}, element("h3", {}, group),
    element("dl", {}, ...list.flatMap(({ label, keys }) => [
      element("dt", {}, ...keys.flatMap((key, at) => [at ? " or " : "", element("kbd", {}, keyWords(key))])),
      element("dd", {}, label)]))));
  byId("keys-body").replaceChildren(...parts);
  byId("keys").showModal();
  // (the button that closes it has the focus, and stands at its end)
  byId("keys").scrollTop = 0;
}

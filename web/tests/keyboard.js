// A keyboard at the page: keys as a person presses them, and the control that has the focus.

import { SHIFT } from "./support.js";

const CODES = { Tab: 9, Enter: 13, Escape: 27, " ": 32, PageUp: 33, PageDown: 34, End: 35, Home: 36, ArrowLeft: 37, ArrowUp: 38,
  ArrowRight: 39, ArrowDown: 40, Delete: 46 };

export async function stroke(browser, key, modifiers = 0) {
  const text = key === "Enter" ? "\r" : key.length === 1 && !(modifiers & 2) ? key : undefined;
  const more = { key, modifiers, windowsVirtualKeyCode: CODES[key] ?? (/^\w$/.test(key) ? key.toUpperCase().charCodeAt(0) : 0) };
  await browser.call("Input.dispatchKeyEvent", { type: text ? "keyDown" : "rawKeyDown", text, ...more });
  await browser.call("Input.dispatchKeyEvent", { type: "keyUp", ...more });
}

export async function strokes(browser, text) {
  for (const key of text) await stroke(browser, key);
}

const isFocused = (browser, selector) => browser.ask(`document.activeElement.matches(${JSON.stringify(selector)})`);

// Goes by Tab, or backwards, until the control of a selector has the focus.
export async function tabTo(browser, selector, { isBack = false, most = 250 } = {}) {
  for (let left = most; left > 0; left--) {
    await stroke(browser, "Tab", isBack ? SHIFT : 0);
    if (await isFocused(browser, selector)) return;
  }
  throw new Error(`no Tab goes to ${selector}`);
}

// The control that has the focus: its words, and what is wrong with how it is seen; null where none has it.
export const focused = (browser) => browser.ask(`(() => {
  const one = document.activeElement;
  if (!one || one === document.body) return null;
  const { outlineStyle, outlineWidth } = getComputedStyle(one), box = one.getBoundingClientRect();
  const x = Math.min(innerWidth - 1, Math.max(0, box.x + box.width / 2)), y = Math.min(innerHeight - 1, Math.max(0, box.y + box.height / 2));
  const top = document.elementFromPoint(x, y), words = one.getAttribute("aria-label") ?? one.labels?.[0]?.textContent ?? one.textContent;
  const faults = [];
  if (outlineStyle === "none" || parseFloat(outlineWidth) < 2) faults.push("without an outline");
  if (box.right <= 0 || box.bottom <= 0 || box.left >= innerWidth || box.top >= innerHeight) faults.push("out of the window");
  else if (!top || !(one.contains(top) || top.contains(one))) faults.push("covered by " + (top?.id || top?.tagName));
  return { words: (one.id ? "#" + one.id + " " : "") + words.trim().slice(0, 60), tag: one.tagName, id: one.id, faults,
    isClosed: one.tagName === "SUMMARY" && !one.parentElement.open };
})()`);

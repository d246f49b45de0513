// What a user's hands do on the page: drops of files and folders from the disk, keys that are held, typed lines, presses of
// buttons. Nothing here knows a module of the page.

import { writeFileSync } from "node:fs";
import { join } from "node:path";
import { room } from "./support.js";

export const pause = (ms) => new Promise((done) => setTimeout(done, ms));

// Drops files or folders, by their paths, on the board.
export async function drop(tab, paths, [x, y] = [600, 400]) {
  const data = { items: [], files: paths, dragOperationsMask: 1 };
  for (const type of ["dragEnter", "dragOver", "drop"]) await tab.call("Input.dispatchDragEvent", { type, x, y, data });
}

// Writes files, { NAME: text }, to a folder of their own; their paths.
export function onDisk(files, folder = room()) {
  return Object.entries(files).map(([name, bytes]) => {
    writeFileSync(join(folder, name), bytes);
    return join(folder, name);
  });
}

// Chooses files in the dialogue that a button opens.
export async function choose(tab, action, paths) {
  await tab.call("Page.setInterceptFileChooserDialog", { enabled: true });
  const from = tab.browser.events.length;
  await press(tab, `[data-act=${action}]`);
  const { backendNodeId } = await tab.heard("Page.fileChooserOpened", from);
  await tab.call("DOM.setFileInputFiles", { files: paths, backendNodeId });
}

// Holds a key so long that the keyboard repeats it: `times` strokes, `every` so many ms.
export async function hold(tab, key, times, { modifiers = 0, every = 0 } = {}) {
  const text = key.length === 1 && !(modifiers & 2) ? key : undefined;
  const strokes = [];
  const send = (event) => {
    const stroke = tab.call("Input.dispatchKeyEvent", event);
    // A page may end while the key is held; that is told when all strokes are waited for.
    stroke.catch(() => {});
    strokes.push(stroke);
  };
  for (let stroke = 0; stroke < times; stroke++) {
    send({ type: "keyDown", key, modifiers, text, autoRepeat: stroke > 0 });
    if (every) await pause(every);
  }
  send({ type: "keyUp", key, modifiers });
  await Promise.all(strokes);
}

// The middle of an element as it is seen; null where it is not.
export async function middleOf(tab, selector, at = 0) {
  return JSON.parse(await tab.ask(`(() => {
    const found = document.querySelectorAll(${JSON.stringify(selector)})[${at}];
    found?.scrollIntoView({ block: "nearest" });
    const box = found?.getBoundingClientRect();
    return JSON.stringify(box?.width ? [box.x + box.width / 2, box.y + box.height / 2] : null);
  })()`));
}

// Presses a button by the mouse.
export async function press(tab, selector, at = 0) {
  const middle = await middleOf(tab, selector, at);
  if (!middle) throw new Error(`there is no ${selector} to press`);
  await tab.click(...middle);
}

// Saves all layers as the station writes them, without what their files say of items.
export const saveBare = (tab) => tab.ask("document.querySelector('[data-act=save-bare]').click()");

// Types a line of the script, and Enter.
export async function typeLine(tab, line) {
  await press(tab, "#line");
  await tab.type(line);
  await tab.key("Enter");
}

// Lets go of the field for lines, so that keys are those of the board again.
export const toBoard = (tab) => tab.ask("document.getElementById('marks').focus()");

// Answers the question that is open, by the words of a button.
export async function answer(tab, words) {
  await tab.wait("document.getElementById('question').open");
  const at = await tab.ask(`[...document.querySelectorAll("#question-choices button")]
    .findIndex((button) => ${words}.test(button.textContent))`);
  if (at < 0) throw new Error(`the question has no answer ${words}`);
  await press(tab, "#question-choices button", at);
}

// Files that were chosen in the dialogue of `open` (or `folder`), without the dialogue.
export async function openFiles(tab, paths, id = "files") {
  const { result } = await tab.call("Runtime.evaluate", { expression: `document.getElementById("${id}")` });
  await tab.call("DOM.setFileInputFiles", { files: paths, objectId: result.objectId });
}

// What tests do in the windows of a model browser: files that are dropped, lines that are typed, another window.

import assert from "node:assert/strict";
import { ModelBrowser } from "./browser.js";
import { ModelPage } from "./page.js";
import { chances } from "../../../tools/tests/pictures.js";
import { gerber } from "../world.js";

export const told = ({ state }) => state.told.map(({ line }) => line);
export const titles = ({ boards }) => boards.list.map(({ title, number }) => title ?? `board ${number}`);

// A browser with a page in it, which is at rest.
export async function begun(seed = 1) {
  const browser = new ModelBrowser(chances(seed)), page = new ModelPage(browser);
  await browser.rest(3000);
  return { browser, page };
}

export async function another(browser, session = null) {
  const page = new ModelPage(browser, session);
  await browser.rest(5000);
  assert.deepEqual([page.isReady, page.faults], [true, []]);
  return page;
}

export async function drop(page, name, count) {
  page.machine.send({ kind: "open", files: [{ name, bytes: gerber(count) }], token: "t" });
  await page.browser.rest();
}

export async function type(page, ...lines) {
  for (const line of lines) page.machine.gesture({ kind: "lines", lines: [line] });
  await page.browser.rest();
}

// A window with the boards lamp and radio, of which it shows lamp.
export async function withTwo() {
  const { browser, page } = await begun();
  await drop(page, "lamp.gtl", 3);
  page.boards.add();
  await browser.rest();
  await drop(page, "radio.gtl", 5);
  page.boards.show(page.boards.list[0]);
  await browser.rest();
  return { browser, page };
}

// What the tests of looking share: what the page says last, where the view is, fields, and a page that is loaded anew.

import assert from "node:assert/strict";
import { last, lines } from "./support.js";
import { press } from "./hands.js";

export const idle = (browser) => browser.ask("camplot.idle()");
export const lastLine = async (browser) => last(await lines(browser), 1)[0];
export const centre = (browser) => browser.ask(`(() => { const { width, height } = camplot.view.canvas;
  const { x, y } = camplot.view.pointAt(width / 2, height / 2); return [x, y]; })()`);

// The centre is whole pixels of the canvas, so it may be half a pixel away.
export async function assertCentre(browser, [x, y]) {
  const [atX, atY] = await centre(browser);
  assert.ok(Math.abs(atX - x) <= 1 && Math.abs(atY - y) <= 1, `${atX}, ${atY} and not ${x}, ${y}`);
}

export async function write(browser, selector, value) {
  await press(browser, selector);
  await browser.ask("document.activeElement.select()");
  await browser.type(value);
}

// Loads the page anew. An expression that is asked while it goes has no answer.
export async function reload(browser) {
  await browser.ask("document.body.dataset.ready = 'no'");
  await browser.call("Page.reload");
  for (let left = 20; ; left--) {
    try {
      return await browser.wait("document.body && document.body.dataset.ready === 'yes'");
    } catch (fault) {
      if (!left || !/navigated|context/.test(fault.message)) throw fault;
    }
  }
}

// What the tests of snaps and of the pointer share: moves of the mouse whose sign is waited for.

import { onPage } from "./support.js";

// The station has answered what lies near the pointer.
export const answered = (browser) => browser.wait("!camplot.pointer.snaps.isUnderWay", 60);

export const sign = async (browser) => {
  const snap = await browser.ask("camplot.marks.signs.snap");
  return snap && [snap.kind, `${snap.name} ${snap.place}`, snap.x, snap.y];
};

// Moves the mouse to a point in nm, so many pixels beside it, and waits for the station's answer.
export async function hover(browser, [x, y], [right, down] = [0, 0], more = {}) {
  const [left, top] = await onPage(browser, x, y), at = [left + right, top + down];
  await browser.mouse("mouseMoved", ...at, more);
  await answered(browser);
  // (what was asked for while another question was under way)
  await browser.mouse("mouseMoved", ...at, more);
  await answered(browser);
  return at;
}

export async function clickNear(browser, point, beside) {
  const at = await hover(browser, point, beside);
  for (const type of ["mousePressed", "mouseReleased"]) await browser.mouse(type, ...at, { button: "left", clickCount: 1 });
}

// Drags from near one point to near another one; what is shown on the way is waited for.
export async function dragNear(browser, from, to, { beside = [0, 0], besideEnd = [0, 0] } = {}) {
  const start = await hover(browser, from, beside);
  await browser.mouse("mousePressed", ...start, { button: "left", clickCount: 1 });
  const end = await hover(browser, to, besideEnd, { button: "left", buttons: 1 });
  const shown = await sign(browser);
  await browser.mouse("mouseReleased", ...end, { button: "left", clickCount: 1 });
  await browser.ask("camplot.idle()");
  return shown;
}

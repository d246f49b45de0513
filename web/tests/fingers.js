// Fingers on the page, and the devices that have them.

import { openPage } from "./support.js";
import { pause } from "./hands.js";

// A page as a device shows it that is worked by fingers.
export async function openDevice(width, height, scale) {
  const browser = await openPage({ width, height, scale });
  await browser.call("Emulation.setDeviceMetricsOverride", { width, height, deviceScaleFactor: scale, mobile: true });
  await browser.call("Emulation.setTouchEmulationEnabled", { enabled: true, maxTouchPoints: 5 });
  await pause(100);
  return browser;
}

// Fingers at places of the page, in the order of their numbers; none where all are lifted.
const touch = (browser, type, places) => browser.call("Input.dispatchTouchEvent", { type,
  touchPoints: places.map(([x, y], id) => ({ x, y, id })) });

export async function tap(browser, place) {
  await touch(browser, "touchStart", [place]);
  await touch(browser, "touchEnd", []);
}

// Moves fingers from places to others in some steps; the first stays so many ms before it moves.
export async function swipe(browser, from, to, { held = 0, steps = 6 } = {}) {
  await touch(browser, "touchStart", from);
  if (held) await pause(held);
  for (let step = 1; step <= steps; step++) {
    const part = step / steps;
    await touch(browser, "touchMove", from.map(([x, y], at) => [x + (to[at][0] - x) * part, y + (to[at][1] - y) * part]));
  }
  await touch(browser, "touchEnd", []);
}

// The middle of an element that is seen.
export async function middle(browser, selector) {
  return JSON.parse(await browser.ask(`(() => { const one = document.querySelector(${JSON.stringify(selector)});
    one.scrollIntoView({ block: "nearest" }); const box = one.getBoundingClientRect();
    return JSON.stringify([box.x + box.width / 2, box.y + box.height / 2]); })()`));
}

export const tapOn = async (browser, selector) => tap(browser, await middle(browser, selector));

// A picture of the window in the folder SCREENS, where that is set.
export async function screen(browser, name) {
  if (process.env.SCREENS) await browser.screenshot(`${process.env.SCREENS}/${name}.png`);
}

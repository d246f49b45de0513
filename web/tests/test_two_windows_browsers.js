// Walks at random over two windows of Chromium and of Firefox. GESTURES and SEED choose how many gestures, and which walk.

// One thing after another is done to a browser: nothing else changes it meanwhile.
/* eslint require-atomic-updates: "off" */

import assert from "node:assert/strict";
import { pathToFileURL } from "node:url";
import { afterwards, skip, suite, test } from "../../tools/tests/harness.js";
import { BrowsersWalk } from "./windows/browsers.js";
import { Firefox } from "./firefox.js";
import { Tab, openBrowser } from "./tab.js";
import { pageForAny, builtPage } from "./support.js";

const GESTURES = Number(process.env.GESTURES ?? 60), SEED = Number(process.env.SEED ?? 1);

async function chromium() {
  const page = builtPage(), browser = await openBrowser();
  let context = null;
  return {
    open: async () => {
      const tab = await Tab.open(browser, { page, context });
      context ??= tab.context;
      return tab;
    },
    ask: (tab, expression) => tab.ask(expression),
    reload: (tab) => tab.reload(),
    close: (tab) => tab.close(),
    crash: (tab) => tab.crash(),
  };
}

// Windows of one Firefox, of which one at a time is driven.
async function firefox() {
  if (Firefox.lacks()) skip(`${Firefox.lacks()} is not installed`);
  const page = pageForAny(), browser = await Firefox.open(page);
  afterwards(() => browser.close());
  let isFirst = true;
  const to = (handle) => browser.send("SwitchToWindow", { handle });
  const ask = async (handle, expression) => {
    await to(handle);
    return browser.ask(expression);
  };
  return {
    open: async () => {
      const { handle } = isFirst ? { handle: await browser.send("GetWindowHandle") } : await browser.send("NewWindow", { type: "window" });
      await to(handle);
      if (!isFirst) await browser.send("NavigateTo", { url: pathToFileURL(page).href });
      isFirst = false;
      await browser.arrive();
      return handle;
    },
    ask,
    reload: async (handle) => {
      await to(handle);
      await browser.reload();
    },
    // (the last window stays, since the browser goes with it: it is opened again)
    close: async (handle) => {
      await to(handle);
      const all = await browser.send("GetWindowHandles");
      if (all.length > 1) await browser.send("CloseWindow");
      else await browser.send("NavigateTo", { url: "about:blank" });
      if (all.length === 1) isFirst = true;
      await to((await browser.send("GetWindowHandles"))[0]);
      if (all.length === 1) {
        await browser.send("NavigateTo", { url: pathToFileURL(page).href });
        await browser.arrive();
      }
    },
    crash(handle) { return this.close(handle); },
  };
}

suite("two windows at random", () => {
  for (const [name, driver] of [["Chromium", chromium], ["Firefox", firefox]]) {
    test(`${GESTURES} gestures in ${name}`, async () => assert.ok(await new BrowsersWalk(await driver(), SEED).run(GESTURES) > 0));
  }
});

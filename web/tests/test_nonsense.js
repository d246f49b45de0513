// Nonsense in each place of the store, and in a message of another window: the page begins as well as it can, and what is kept of the
// boards stays as it is.

import assert from "node:assert/strict";
import { suite, test } from "../../tools/tests/harness.js";
import { another, titles, told, type, withTwo } from "./windows/hands.js";
import { putBase, rowsOf } from "./windows/database.js";

const NAME = "camplot boards", LAMP = ["load top gerber files/lamp.gtl"], RADIO = ["load top gerber files/radio.gtl"];
const VALUES = [null, 5, "text", [], [5], {}, { entries: 5 }, { entries: [null] }, { number: "1", title: 5, shown: "now", window: [], holder: {} }];

// A browser with the boards lamp and radio, which no window has, when `act` has changed what it keeps of the radio; and a new window.
async function withNonsense(act) {
  const { browser, page } = await withTwo(), [, { key }] = page.boards.list;
  page.kill();
  await browser.rest();
  act((store, name) => rowsOf(browser, NAME, store).find(([its]) => JSON.stringify(its) === JSON.stringify(name)), key);
  const before = structuredClone(rowsOf(browser, NAME, "lines"));
  return { browser, page: await another(browser), key, before };
}

async function show(page, at) {
  page.boards.show(page.boards.list[at]);
  await page.browser.rest();
  assert.deepEqual([page.faults, page.state.faults], [[], []]);
}

// Opens the radio, from the tabs or from the list of all boards.
async function showRadio(page, key) {
  const at = page.boards.list.findIndex((board) => board.key === key);
  if (at >= 0) return show(page, at);
  page.boards.adopt(key);
  return page.browser.rest();
}

for (const value of VALUES) {
  suite(`nonsense in the store: ${JSON.stringify(value)}`, () => {
    test("as the record of a board: it is offered, with its lines", async () => {
      const { page, key } = await withNonsense((row, name) => { row("boards", name)[1] = value; });
      await showRadio(page, key);
      assert.deepEqual([told(page), page.state.kept.why], [RADIO, null]);
      await type(page, "move top 0 7 0");
      assert.deepEqual([told(page), page.state.kept.why], [[...RADIO, "move top 0 7 0"], null]);
      await show(page, page.boards.list.findIndex(({ title }) => title === "lamp"));
      assert.deepEqual(told(page), LAMP);
    });

    test("as a line: the page says that it cannot be read, and writes nothing over it", async () => {
      const { browser, page, key, before } = await withNonsense((row, name) => { row("lines", [name, 1])[1] = value; });
      const looks = structuredClone(rowsOf(browser, NAME, "looks").find(([name]) => name[0] === key && name[1] === "looks"));
      await showRadio(page, key);
      assert.match(page.state.kept.why, /^What the browser kept cannot be read/);
      await type(page, "layer other gerber");
      page.keepLooks();
      await browser.rest();
      assert.deepEqual(rowsOf(browser, NAME, "lines"), before);
      assert.deepEqual(rowsOf(browser, NAME, "looks").find(([name]) => name[0] === key && name[1] === "looks"), looks);
      await show(page, page.boards.list.findIndex(({ title }) => title === "lamp"));
      assert.deepEqual(told(page), LAMP);
    });

    test("as the look of a line's layer: the line is there", async () => {
      const { page, key } = await withNonsense((row, name) => { row("lines", [name, 1])[1].entries[0].layer = value; });
      await showRadio(page, key);
      assert.deepEqual([told(page), page.state.kept.why], [RADIO, null]);
    });

    test("as a file: the page says that it cannot be read", async () => {
      const { page, key } = await withNonsense((row, name) => { row("files", [name, row("lines", [name, 1])[1].entries[0].file])[1] = value; });
      await showRadio(page, key);
      assert.match(page.state.kept.why, /^What the browser kept cannot be read/);
    });

    for (const name of ["looks", "waiting"]) {
      test(`as ${name}: its lines are there`, async () => {
        const { page, key } = await withNonsense((row, its) => { row("looks", [its, name])[1] = value; });
        await showRadio(page, key);
        assert.deepEqual([told(page), page.state.kept.why, titles(page)], [RADIO, null, ["lamp", "radio"]]);
      });
    }

    test("as a part of the looks, or of what waits", async () => {
      const { page, key } = await withNonsense((row, its) => {
        for (const name of ["looks", "waiting"]) {
          const entry = row("looks", [its, name]);
          entry[1] = Object.fromEntries([...Object.keys(entry[1]), "view", "checks", "job", "face"].map((part) => [part, value]));
        }
      });
      const looks = page.boards.store.looksOf([key]);
      await page.browser.rest();
      assert.equal((await looks)[0].layers, 0);
      await showRadio(page, key);
      assert.deepEqual([told(page), page.state.kept.why, titles(page)], [RADIO, null, ["lamp", "radio"]]);
    });

    test("as a message of another window: nothing comes of it", async () => {
      const { browser, page } = await withTwo(), { key } = page.boards.shown, other = await another(browser);
      const { channel } = other.boards.holding, { self } = page.boards.holding;
      other.boards.holding.waiting.set(key, assert.fail);
      const kinds = [null, "ask", "handing", "refused", "news", "constructor"];
      for (const kind of kinds) channel.postMessage(kind === null ? value : { kind, key: value, to: self, from: value, why: value });
      for (const why of [null, 5, {}]) channel.postMessage({ kind: "refused", key, to: self, why });
      await browser.rest(20000);
      assert.deepEqual([titles(page), page.state.faults, told(page)], [["lamp", "radio"], [], LAMP]);
    });

    test("as the list of a store of before: its boards are brought over", async () => {
      const { browser, page: before } = await withTwo();
      before.kill();
      for (const registry of [value, { boards: value, shown: value, count: value }, { boards: [value], shown: "", count: 1 }]) {
        putBase(browser, "camplot ", { lines: [[1, { entries: [{ line: "layer clock gerber", reply: "ok" }] }]], files: [],
          looks: [["looks", { registry, layers: value }]] });
        const page = await another(browser);
        assert.deepEqual(await page.window.platform.database().databases(), [{ name: NAME }]);
        assert.doesNotMatch(page.words, /could not be opened/);
        page.kill();
        await browser.rest();
      }
    });
  });
}

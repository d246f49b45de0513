// Two windows over one store, without a browser: what is not kept, or not done yet, when a board is taken over or what is kept is deleted.

import assert from "node:assert/strict";
import { another, drop, titles, told, type, withTwo } from "./windows/hands.js";
import { suite, test } from "../../tools/tests/harness.js";
import { gerber } from "./world.js";
import { rowsOf } from "./windows/database.js";

const DELETED = /^What the browser kept of this page was deleted/;
const TAKEN = /^Another window took this board over/;
const linesOf = (browser, key) => rowsOf(browser, "camplot boards", "lines").filter(([name]) => name[0] === key);

// Another window takes the board that is shown, while this one stands still; then this one goes on.
async function taken(browser, { boards, window }, second) {
  Object.assign(window, { isStill: true });
  second.boards.takeOver(boards.shown.key);
  await browser.rest(20000);
  Object.assign(window, { isStill: false });
  await browser.rest(20000);
}

// The state of a board of a window by its title.
const stateOf = (page, title) => page.states.find(({ board }) => board.title === title).state;

suite("what is kept is deleted while a board is written anew", () => {
  // Of a board with two layers one is closed, which writes it anew and then how it looks; the data goes after so many steps of that.
  for (const moment of Array.from({ length: 40 }, (_, at) => at)) {
    test(`after ${moment} of its steps`, async () => {
      const { browser, page } = await withTwo();
      await drop(page, "lamp.gbl", 2);
      page.machine.gesture({ kind: "close", name: "bottom" });
      for (let step = 0; step < moment; step++) await browser.happen();
      browser.deleteData();
      await browser.rest(3000);
      assert.deepEqual([told(page), browser.bases.size], [["load top gerber files/lamp.gtl"], 0]);
      assert.deepEqual([DELETED.test(page.state.kept.why), page.state.kept.isLost], [true, true]);
      page.machine.send({ kind: "keepAgain" });
      await browser.rest();
      assert.deepEqual([page.state.kept.why, linesOf(browser, page.boards.shown.key).length], [null, 1]);
    });
  }
});

suite("files that were left closed", () => {
  test("do not make another board of one that was taken over", async () => {
    const { browser, page } = await withTwo(), second = await another(browser);
    await type(page, "move top 0 9 0");
    browser.isFull = true;
    page.machine.send({ kind: "open", files: [{ name: "clock.gto", bytes: gerber(2) }], token: "t" });
    await browser.rest();
    page.machine.send({ kind: "replied", question: page.state.questions[0].id, value: "no" });
    await browser.rest();
    assert.deepEqual([Object.values(page.state.files).map(({ name }) => name), page.state.kept.files], [["lamp.gtl"], []]);
    await taken(browser, page, second);
    assert.deepEqual([titles(page), page.state.said.text], [["radio"], "lamp is open in another window now."]);
    assert.deepEqual([titles(second), told(second)], [["lamp"], ["load top gerber files/lamp.gtl", "move top 0 9 0"]]);
  });
});

suite("what waits for a station that stopped", () => {
  const ended = async ({ machine, browser }) => {
    machine.link.end("it ended");
    await browser.rest();
  };
  const kinds = {
    "a line": (page) => type(page, "move top 1 7 0"),
    "an edit": async (page) => {
      page.machine.gesture({ kind: "edit", verb: "move", dx: 7, dy: 0 });
      await page.browser.rest();
    },
    "a file": (page) => drop(page, "clock.gto", 2),
  };
  for (const [words, act] of Object.entries(kinds)) {
    test(`${words} stays in its window when another one takes the board over, and is done there`, async () => {
      const { browser, page } = await withTwo(), second = await another(browser), before = page.boards.shown.key;
      page.machine.gesture({ kind: "picks", places: [{ name: "top", place: 1 }] });
      await browser.rest();
      await ended(page);
      await act(page);
      await taken(browser, page, second);
      assert.deepEqual([titles(second), told(second)], [["lamp"], ["load top gerber files/lamp.gtl"]]);
      assert.deepEqual(titles(page).sort(), ["lamp", "radio"]);
      assert.match(stateOf(page, "lamp").kept.why, TAKEN);
      assert.notEqual(page.boards.shown.key, before);
      page.machine.send({ kind: "openAgain" });
      page.machine.send({ kind: "keepAgain" });
      await browser.rest();
      const last = words === "a file" ? "load top-silk gerber files/clock.gto" : "move top 1 7 0";
      assert.deepEqual([told(page), page.state.kept.why], [["load top gerber files/lamp.gtl", last], null]);
      assert.deepEqual(linesOf(browser, page.boards.shown.key).flatMap(([, { entries }]) => entries.map(({ line }) => line)), told(page));
      assert.equal(linesOf(browser, before).length, 1);
    });
  }

  for (const isShown of [true, false]) {
    test(`is not handed over to a window that asks for ${isShown ? "the board that is shown" : "another board"}, which is told why`, async () => {
      const { browser, page } = await withTwo(), second = await another(browser), { key } = page.boards.shown;
      await ended(page);
      await type(page, "move top 1 7 0");
      if (!isShown) page.boards.show(page.boards.list[1]);
      await browser.rest();
      second.boards.takeOver(key);
      await browser.rest(20000);
      assert.deepEqual(titles(page), ["lamp", "radio"]);
      assert.match(second.state.said.text, /^Its station stopped in the other window, and what was done since waits there/);
      if (!isShown) page.boards.show(page.boards.list[0]);
      await browser.rest();
      page.machine.send({ kind: "openAgain" });
      await browser.rest();
      second.boards.takeOver(key);
      await browser.rest(20000);
      assert.deepEqual([titles(page), told(second)], [["radio"], ["load top gerber files/lamp.gtl", "move top 1 7 0"]]);
    });
  }

  test("is nothing where only the view would change", async () => {
    const { browser, page } = await withTwo(), second = await another(browser);
    await ended(page);
    page.machine.gesture({ kind: "seek" });
    await taken(browser, page, second);
    assert.deepEqual([titles(page), titles(second)], [["radio"], ["lamp"]]);
  });
});

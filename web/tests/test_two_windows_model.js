// Two to four windows over one store, without a browser: what each loss of before needs, and walks at random. GESTURES and SEED choose
// how many gestures a walk has, and which one.

import assert from "node:assert/strict";
import { suite, test } from "../../tools/tests/harness.js";
import { chances } from "../../tools/tests/pictures.js";
import { ModelBrowser } from "./windows/browser.js";
import { ModelPage } from "./windows/page.js";
import { FOUND } from "./windows_walk.js";
import { WindowsWalk } from "./windows/walk.js";
import { another, drop, titles, told, type, withTwo } from "./windows/hands.js";
import { gerber } from "./world.js";
import { putBase, rowsOf } from "./windows/database.js";

const GESTURES = Number(process.env.GESTURES ?? 250);
const SEEDS = process.env.SEED ? [Number(process.env.SEED)] : Array.from({ length: 40 }, (_, at) => at + 1);

suite("two windows over one store", () => {
  test("new in the second one is no board of the first", async () => {
    const { browser, page } = await withTwo(), second = await another(browser);
    second.boards.add();
    await browser.rest();
    assert.deepEqual([told(second), titles(page)], [[], ["lamp", "radio"]]);
    await drop(second, "clock.gtl", 2);
    second.machine.gesture({ kind: "closeAll" });
    await browser.rest(3000);
    page.boards.show(page.boards.list[1]);
    await browser.rest();
    assert.deepEqual([told(page), page.state.kept.why], [["load top gerber files/radio.gtl"], null]);
  });

  test("start over in the second one leaves the boards of the first", async () => {
    const { browser, page } = await withTwo(), second = await another(browser);
    second.boards.add();
    await browser.rest();
    await drop(second, "clock.gtl", 2);
    second.machine.send({ kind: "ask", question: { kind: "anew" } });
    second.machine.send({ kind: "replied", question: second.state.questions[0].id, value: "yes" });
    await browser.rest(5000);
    assert.deepEqual([told(second.next), second.next.boards.list.length], [[], 1]);
    browser.kill();
    const again = await another(browser);
    assert.deepEqual([titles(again), told(again)], [["lamp", "radio"], ["load top gerber files/lamp.gtl"]]);
    assert.equal(page.state.kept.why, null);
  });

  test("what is new in the second one is kept, and there when the page is opened again", async () => {
    const { browser, page } = await withTwo(), second = await another(browser);
    second.boards.add();
    await browser.rest();
    await drop(second, "clock.gtl", 2);
    await type(second, "move top 0 7 0");
    assert.equal(second.state.kept.why, null);
    page.kill();
    second.kill();
    const again = await another(browser);
    assert.deepEqual([titles(again), told(again)], [["lamp", "radio", "clock"], ["load top gerber files/clock.gtl", "move top 0 7 0"]]);
  });

  test("a new board says at once that it is not kept", async () => {
    const { browser, page } = await withTwo();
    browser.isFull = true;
    page.boards.add();
    await browser.rest();
    assert.match(page.state.kept.why, /^The browser cannot keep more/);
    browser.isFull = false;
    await type(page, "# a note");
    page.machine.send({ kind: "keepAgain" });
    await drop(page, "clock.gtl", 2);
    assert.equal(page.state.kept.why, null);
    page.kill();
    assert.deepEqual(titles(await another(browser)), ["lamp", "radio", "clock"]);
  });

  test("lists the boards of the other one, and takes one over, which ends there", async () => {
    const { browser, page } = await withTwo(), second = await another(browser);
    assert.equal(second.words, "2 boards are open in another window: see 'boards'.");
    assert.deepEqual(second.boards.others.map(({ title, isHeld }) => [title, isHeld]), [["lamp", true], ["radio", true]]);
    await type(page, "move top 1 9 0");
    second.boards.takeOver(page.boards.shown.key);
    await browser.rest(3000);
    assert.deepEqual([titles(page), page.state.said.text], [["radio"], "lamp is open in another window now."]);
    assert.deepEqual([titles(second), told(second)], [["lamp"], ["load top gerber files/lamp.gtl", "move top 1 9 0"]]);
    await type(second, "move top 2 9 0");
    assert.equal(second.state.kept.why, null);
  });

  test("takes nothing over of which not all is kept", async () => {
    const { browser, page } = await withTwo(), second = await another(browser);
    browser.isFull = true;
    await type(page, "move top 1 9 0");
    second.boards.takeOver(page.boards.shown.key);
    await browser.rest(20000);
    assert.deepEqual([titles(page), told(page).length], [["lamp", "radio"], 2]);
    assert.match(second.state.said.text, /^What was done to it in the other window is not kept, so it stays there/);
  });

  test("takes a board of a window that stands still, which writes nothing more to it", async () => {
    const { browser, page } = await withTwo(), second = await another(browser), { key } = page.boards.shown;
    page.window.isStill = true;
    second.boards.takeOver(key);
    await browser.rest(20000);
    await type(second, "move top 2 9 0");
    page.window.isStill = false;
    await type(page, "move top 0 1 0");
    await browser.rest(3000);
    const lines = rowsOf(browser, "camplot boards", "lines").filter(([name]) => name[0] === key).flatMap(([, { entries }]) => entries);
    assert.deepEqual(lines.map(({ line }) => line), ["load top gerber files/lamp.gtl", "move top 2 9 0"]);
    assert.deepEqual([titles(second), second.state.kept.why], [["lamp"], null]);
    // What was done to it there since is there alone, and can be kept as a board of its own.
    const there = page.states.find(({ state }) => state.told.some(({ line }) => line === "move top 0 1 0"));
    if (!there) return;
    assert.match(there.state.kept.why, /^Another window took this board over/);
    page.boards.show(there.board);
    await browser.rest();
    page.machine.send({ kind: "keepAgain" });
    await browser.rest();
    assert.equal(page.state.kept.why, null);
  });

  test("takes a board of a window that writes to it before it hears of that", async () => {
    const { browser, page } = await withTwo(), second = await another(browser), { key } = page.boards.shown;
    page.window.isStill = true;
    second.boards.takeOver(key);
    await browser.rest(20000);
    page.window.isStill = false;
    // (what its locks tell it comes after its write)
    const lane = `${page.window.id} locks`, late = browser.lanes.get(lane);
    browser.lanes.delete(lane);
    await type(page, "move top 0 1 0");
    assert.match(page.states.map(({ state }) => state.kept.why).join(""), /^Another window took this board over/);
    browser.lanes.set(lane, late);
    await browser.rest(3000);
    const lines = rowsOf(browser, "camplot boards", "lines").filter(([name]) => name[0] === key).flatMap(([, { entries }]) => entries);
    assert.deepEqual(lines.map(({ line }) => line), ["load top gerber files/lamp.gtl"]);
    assert.deepEqual([told(second), second.state.kept.why], [["load top gerber files/lamp.gtl"], null]);
  });

  for (const isMore of [false, true]) {
    test(`takes a board of a window that stands still before it hears that a line is kept${isMore ? ", with a line after it" : ""}`, async () => {
      const { browser, page } = await withTwo(), second = await another(browser), { key } = page.boards.shown;
      for (const line of ["move top 1 9 0", ...isMore ? ["move top 2 9 0"] : []]) page.machine.gesture({ kind: "lines", lines: [line] });
      while (rowsOf(browser, "camplot boards", "lines").filter(([name]) => name[0] === key).length < 2) await browser.happen();
      page.window.isStill = true;
      second.boards.takeOver(key);
      await browser.rest(20000);
      page.window.isStill = false;
      // (what its locks tell it comes before the answer)
      const lane = `${page.window.id} database`, late = browser.lanes.get(lane);
      browser.lanes.delete(lane);
      await browser.rest();
      browser.lanes.set(lane, late);
      await browser.rest(20000);
      assert.deepEqual([titles(second), told(second)], [["lamp"], ["load top gerber files/lamp.gtl", "move top 1 9 0"]]);
      // What was done after that is in the first one alone, which has nothing else of it.
      const why = page.states.map(({ state }) => state.kept.why).filter((words) => words !== null);
      assert.deepEqual([titles(page), why.length], isMore ? [["lamp", "radio"], 1] : [["radio"], 0]);
    });
  }

  for (const isClosed of [false, true]) for (const moment of [4, 12, 20, 22, 24, 26, 28]) {
    test(`takes a board of a window that stands still while it opens that, after ${moment} of its steps${isClosed ? ", and closes it" : ""}`, async () => {
      const { browser, page: before } = await withTwo();
      before.kill();
      const page = await another(browser, before.window.session), second = await another(browser), [, radio] = page.boards.list;
      page.boards.show(radio);
      for (let step = 0; step < moment; step++) await browser.happen();
      page.window.isStill = true;
      second.boards.takeOver(radio.key);
      await browser.rest(20000);
      const isHere = second.boards.list.some(({ key }) => key === radio.key);
      if (isClosed && isHere) second.machine.gesture({ kind: "closeAll" });
      if (isClosed) await browser.rest();
      page.window.isStill = false;
      await browser.rest(20000);
      // Nothing was done to it in the first one, so it is in the second one alone.
      assert.deepEqual([titles(page), page.state.kept.why, page.state.said.text], [["lamp"], null, "radio is open in another window now."]);
      const lines = isClosed && isHere ? [] : ["load top gerber files/radio.gtl"];
      assert.deepEqual([told(second), second.state.kept.why], [lines, null]);
    });
  }

  test("goes on with the boards of the first one once that is gone, where nothing was done in it", async () => {
    const { browser, page } = await withTwo(), second = await another(browser);
    page.kill();
    await browser.rest(5000);
    assert.deepEqual([titles(second), told(second)], [["lamp", "radio"], ["load top gerber files/lamp.gtl"]]);
  });
});

suite("what the browser kept is deleted", () => {
  // A tab is opened, where something may be asked in the one before; what is done to its board after that can be kept.
  for (const isAsked of [false, true]) for (const moment of [0, 6, 12, 18, 21, 22, 24, 40]) {
    test(`while a tab is opened, after ${moment} of its steps${isAsked ? ", and a question is open" : ""}`, async () => {
      const { browser, page: before } = await withTwo();
      before.kill();
      const page = await another(browser, before.window.session), [, { key }] = page.boards.list;
      await type(page, "move top 0 9 0");
      if (isAsked) page.machine.gesture({ kind: "closeAll" });
      page.boards.show(page.boards.list[1]);
      for (let step = 0; step < moment; step++) await browser.happen();
      browser.deleteData();
      await browser.rest();
      for (const { id } of page.state.questions) page.machine.send({ kind: "replied", question: id, value: "no" });
      await browser.rest(3000);
      assert.equal(page.boards.shown.key, key);
      assert.match(page.state.kept.why, /^What the browser kept of this page was deleted/);
      page.machine.send({ kind: "keepAgain" });
      await type(page, "move top 0 7 0");
      assert.deepEqual([page.state.kept.why, rowsOf(browser, "camplot boards", "boards").map(([name]) => name)], [null, [key]]);
      page.kill();
      assert.deepEqual(told(await another(browser)).at(-1), "move top 0 7 0");
    });
  }

  for (const moment of [47, 48, 60, 63, 78]) {
    test(`while the page is opened, after ${moment} of its steps`, async () => {
      const { browser, page: before } = await withTwo();
      before.kill();
      const page = new ModelPage(browser);
      for (let step = 0; step < moment; step++) await browser.happen();
      browser.deleteData();
      await browser.rest(20000);
      assert.match(page.state.kept.why, /^What the browser kept of this page was deleted/);
      page.machine.send({ kind: "keepAgain" });
      await browser.rest();
      assert.deepEqual([page.state.kept.why, page.faults], [null, []]);
    });
  }

  test("before a tab is opened", async () => {
    const { browser, page: before } = await withTwo();
    before.kill();
    const page = await another(browser, before.window.session);
    browser.deleteData();
    await browser.rest();
    page.boards.show(page.boards.list[1]);
    await browser.rest();
    assert.match(page.state.kept.why, /^What the browser kept of this page was deleted/);
    page.machine.send({ kind: "keepAgain" });
    await type(page, "move top 0 7 0");
    assert.deepEqual([page.state.kept.why, told(page)], [null, ["move top 0 7 0"]]);
  });

  test("and a new board is kept after that", async () => {
    const { browser, page } = await withTwo();
    browser.deleteData();
    await browser.rest();
    page.boards.add();
    await browser.rest();
    const listed = rowsOf(browser, "camplot boards", "boards").map(([key]) => key);
    assert.deepEqual([page.state.kept.why, listed], [null, [page.boards.shown.key]]);
    await drop(page, "clock.gtl", 2);
    assert.equal(page.state.kept.why, null);
    page.kill();
    const again = await another(browser);
    assert.deepEqual([titles(again), told(again)], [["clock"], ["load top gerber files/clock.gtl"]]);
  });
});

// A store as the pages of before wrote it: a database for each board, and the list in the first one's.
function putOlder(browser, boards, listed) {
  boards.forEach(({ number, name, lines }, at) => putBase(browser, number === 1 ? "camplot " : `camplot  board ${number}`, {
    lines: [`load top gerber files/${name}`, ...lines].map((line, k) => [k + 1, { entries: [{ line, reply: k ? "ok" : "ok 4",
      ...k ? {} : { path: `files/${name}`, file: "given 2", layer: { label: name, file: name } } }] }]),
    files: [["given 2", gerber(4)]],
    looks: at ? [] : [["looks", { registry: { shown: listed[0]?.key ?? "", count: boards.length, isFirstGone: false, boards: listed } }]],
  }));
}

suite("a store of before", () => {
  const three = [{ number: 1, name: "lamp.gtl", lines: [] }, { number: 2, name: "radio.gtl", lines: ["move top 0 5 0"] },
    { number: 4, name: "lost.gtl", lines: ["move top 1 5 0"] }];
  const listed = [{ key: "board 2", number: 2, title: "radio.gtl" }];

  test("is brought over: its boards in their tabs, and one that no list had is offered", async () => {
    const browser = new ModelBrowser(chances(3));
    putOlder(browser, three, listed);
    const page = await another(browser);
    assert.deepEqual([page.boards.list.length, told(page)], [2, ["load top gerber files/radio.gtl", "move top 0 5 0"]]);
    assert.equal(page.words, "1 board is kept that no list had: see 'boards'.");
    assert.deepEqual(await page.window.platform.database().databases(), [{ name: "camplot boards" }]);
    page.boards.adopt(page.boards.others[0].key);
    await browser.rest();
    assert.deepEqual(told(page), ["load top gerber files/lost.gtl", "move top 1 5 0"]);
  });

  // A browser with a store of before, whose page is killed as soon as `isKilled` says so, and another page that has it.
  async function killed(seed, isKilled) {
    const browser = new ModelBrowser(chances(seed));
    putOlder(browser, three, listed);
    const first = new ModelPage(browser);
    for (let step = 0; !isKilled(browser, step); step++) await browser.happen();
    first.kill();
    const page = await another(browser);
    const all = rowsOf(browser, "camplot boards", "boards").map(([key]) => rowsOf(browser, "camplot boards", "lines")
      .filter(([name]) => name[0] === key).flatMap(([, { entries }]) => entries.map(({ line }) => line)).join("; "));
    assert.deepEqual(all.sort(), three.map(({ name, lines }) => [`load top gerber files/${name}`, ...lines].join("; ")).sort());
    assert.deepEqual(await page.window.platform.database().databases(), [{ name: "camplot boards" }]);
  }

  for (const moment of [40, 60, 80, 100, 120, 140, 160, 200, 240]) {
    test(`is brought over once where the page is killed after ${moment} of its steps`, () => killed(moment, (browser, step) => step === moment));
  }

  for (const count of [1, 2, 3]) {
    test(`is brought over once where the page is killed when ${count} of its boards are there, and the last one of them in both`, () =>
      killed(count, (browser) => rowsOf(browser, "camplot boards", "boards").length === count));
  }

  test("stays where there is no room for it, and that is told", async () => {
    const browser = new ModelBrowser(chances(3));
    putOlder(browser, three, listed);
    browser.isFull = true;
    const page = await another(browser);
    assert.match(page.words, /^The boards that this page kept before an update are kept still, and could not be opened/);
    browser.isFull = false;
    page.kill();
    assert.deepEqual(titles(await another(browser)).length, 2);
  });
});

suite("windows at random", () => {
  const walk = (seed, count) => test(`${count} gestures of the seed ${seed}`, async () => assert.ok(await new WindowsWalk(seed).run(count) > 0));
  for (const seed of SEEDS) walk(seed, GESTURES);
  for (const seed of process.env.SEED ? [] : FOUND) walk(seed, 1000);
});

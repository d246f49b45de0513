// The page by fingers: one pans, two pinch, a tap picks, and a finger that is held drags what is picked.

import assert from "node:assert/strict";
import { gerber, give, lines, onPage, picked, settle, text } from "./support.js";
import { openDevice, screen, swipe, tap, tapOn } from "./fingers.js";
import { pause } from "./hands.js";
import { suite, test } from "../../tools/tests/harness.js";

const idle = (browser) => browser.ask("camplot.idle()");
const linesAlone = async (browser) => (await lines(browser)).map((line) => line.split(" -> ")[0]).slice(1);
const viewOf = (browser) => browser.ask("(({ left, top, pitch }) => ({ left, top, pitch }))(camplot.view)");

// A tablet with four pads of 1 mm in a row, 2 mm apart.
async function withPads() {
  const browser = await openDevice(1024, 768, 2);
  await give(browser, [{ name: "pads.gtl", bytes: gerber(...[0, 2, 4, 6].map((x) => `X${x}000000Y0D03*`)) }]);
  await settle(browser);
  return browser;
}

suite("fingers", () => {
  test("one pans, and picks nothing", async () => {
    const browser = await withPads(), before = await viewOf(browser), from = await onPage(browser, 2000000, 0);
    await swipe(browser, [from], [[from[0] + 120, from[1] - 60]]);
    await idle(browser);
    const after = await viewOf(browser);
    assert.equal(after.pitch, before.pitch);
    assert.ok(Math.abs(before.left - after.left - 240 * before.pitch) <= 2 * before.pitch, "to the right");
    assert.ok(Math.abs(before.top - after.top - 120 * before.pitch) <= 2 * before.pitch, "up");
    assert.deepEqual(await picked(browser), []);
    assert.deepEqual(await linesAlone(browser), []);
  });

  test("a tap picks, another one beside it lets go", async () => {
    const browser = await withPads();
    await tap(browser, await onPage(browser, 2000000, 0));
    await idle(browser);
    assert.deepEqual(await picked(browser), ["top 1 flash 10 2000000 0 r0 dark"]);
    await tap(browser, await onPage(browser, 3000000, 900000));
    await idle(browser);
    assert.deepEqual(await picked(browser), []);
  });

  test("two pinch: what lies between them stays there", async () => {
    const browser = await withPads(), before = await viewOf(browser), [x, y] = await onPage(browser, 2000000, 0);
    await swipe(browser, [[x - 50, y], [x + 50, y]], [[x - 100, y + 30], [x + 100, y + 30]], { steps: 20 });
    const after = await viewOf(browser), [nowX, nowY] = await onPage(browser, 2000000, 0);
    assert.ok(Math.abs(after.pitch / before.pitch - 0.5) < 0.01, `${after.pitch / before.pitch}`);
    assert.ok(Math.hypot(nowX - x, nowY - y - 30) < 2, `${nowX - x} ${nowY - y}`);
    await swipe(browser, [[x - 100, y + 30], [x + 100, y + 30]], [[x - 50, y], [x + 50, y]], { steps: 20 });
    assert.ok(Math.abs((await viewOf(browser)).pitch / before.pitch - 1) < 0.01);
    await idle(browser);
    assert.deepEqual([await picked(browser), await linesAlone(browser)], [[], []]);
  });

  test("one that is held drags what lies under it", async () => {
    const browser = await withPads(), before = await viewOf(browser);
    const from = await onPage(browser, 2000000, 0), to = await onPage(browser, 2000000, 1000000);
    await swipe(browser, [from], [to], { held: 900 });
    await idle(browser);
    assert.deepEqual(await viewOf(browser), before);
    const [, dx, dy] = /^move top 1 (-?\d+) (-?\d+)$/.exec((await linesAlone(browser)).join());
    assert.ok(Math.abs(dx) <= 20000 && Math.abs(dy - 1000000) <= 20000, `${dx} ${dy}`);
    // What is picked is not let go of, nor is that below it picked, where the finger did not move.
    await swipe(browser, [await onPage(browser, 2000000, 1000000)], [await onPage(browser, 2000000, 1000000)], { held: 900, steps: 1 });
    await idle(browser);
    assert.match((await picked(browser)).join(), /^top 1 /);
    assert.equal((await linesAlone(browser)).length, 1);
  });

  test("one that is held where nothing lies draws a box", async () => {
    const browser = await withPads();
    await swipe(browser, [await onPage(browser, 1200000, 900000)], [await onPage(browser, 4800000, -900000)], { held: 900 });
    await idle(browser);
    assert.deepEqual((await picked(browser)).map((words) => words.slice(0, 5)), ["top 1", "top 2"]);
    await screen(browser, "touch-box");
  });

  test("a second finger ends what the first one drags", async () => {
    const browser = await withPads(), from = await onPage(browser, 2000000, 0), to = await onPage(browser, 2000000, 1000000);
    const touch = (type, ...places) => browser.call("Input.dispatchTouchEvent", { type,
      touchPoints: places.map(([x, y], id) => ({ x, y, id })) });
    await touch("touchStart", from);
    await pause(900);
    await touch("touchMove", to);
    await touch("touchStart", to, [to[0] + 150, to[1]]);
    await touch("touchEnd");
    await idle(browser);
    assert.deepEqual(await linesAlone(browser), []);
  });

  test("a region is drawn by taps, and ended by its button", async () => {
    const browser = await withPads();
    await tapOn(browser, "[data-act=region]");
    for (const [x, y] of [[0, 1000000], [1000000, 1000000], [1000000, 2000000]]) await tap(browser, await onPage(browser, x, y));
    await screen(browser, "touch-region");
    await tapOn(browser, "#making [data-act=end]");
    await idle(browser);
    assert.match((await linesAlone(browser)).join(), /^insert top 4 region dark (-?\d+ -?\d+ l ){1}/);
    assert.equal(await browser.ask("document.getElementById('making').hidden"), true);
  });

  test("targets of 40 pixels", async () => {
    const browser = await withPads();
    await tap(browser, await onPage(browser, 2000000, 0));
    await idle(browser);
    await browser.ask("camplot.run(['move top 1 1 1'])");
    assert.equal(await browser.ask("matchMedia('(pointer: coarse)').matches"), true);
    await tapOn(browser, "[data-act=panel-right]");
    await browser.ask("for (const details of document.querySelectorAll('details')) details.open = true");
    await idle(browser);
    const small = await browser.ask(`[...document.querySelectorAll("button, input, select, summary")].filter((one) => one.checkVisibility())
      .map((one) => ({ one, box: (one.closest(".target") ?? one).getBoundingClientRect() }))
      .filter(({ box }) => box.width < 40 || box.height < 40).map(({ one, box }) => box.width + "x" + box.height + " " + one.outerHTML.slice(0, 90))`);
    assert.deepEqual(small, []);
    assert.match(await text(browser, "picked"), /top 1/);
    await screen(browser, "touch-targets");
  });
});

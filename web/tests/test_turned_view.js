// The view in quarter turns, also from below: what is seen, clicks, boxes, drags, arrows, the wheel, the rulers and links.

import assert from "node:assert/strict";
import { PAD, clickAt, gerber, give, kicad, lines, onPage, openPage, picked, settle, withPads } from "./support.js";
import { assertCentre, centre, idle, lastLine, reload } from "./looking.js";
import { linkOf, placeIn } from "../page/going.js";
import { press } from "./hands.js";
import { suite, test } from "../../tools/tests/harness.js";

const SHIFT = 8;
const turn = (browser) => browser.key("T", SHIFT);

// The colours of the canvas at points of the board, beside the rulers.
const colours = (browser, points) => browser.ask(`(() => { const { view } = camplot; return ${JSON.stringify(points)}.map(([x, y]) => {
  const at = view.placeOf(x, y), { data } = view.context.getImageData(Math.floor(at.x), Math.floor(at.y), 1, 1); return [...data].join(); }); })()`);

suite("quarter turns of the view", () => {
  test("keep the middle, and each point has the colour that it had", async () => {
    const browser = await openPage();
    await give(browser, kicad());
    await browser.ask(`camplot.going.to({ x: ${PAD[0]}, y: ${PAD[1]}, zoom: 20000 })`);
    await browser.wait("camplot.going.mark === null", 60);
    await settle(browser);
    // (each point is in the middle of a pixel of the canvas, whatever the turn is)
    const middle = await centre(browser), points = [];
    for (let at = 0; at < 60; at++) points.push([Math.round(PAD[0] + (at % 10 - 4.5) * 800000) + 10000, Math.round(PAD[1] + (Math.floor(at / 10) - 2.5) * 800000) + 10000]);
    const seen = await colours(browser, points);
    assert.ok(new Set(seen).size > 2, `${new Set(seen).size}`);
    for (let quarters = 1; quarters <= 4; quarters++) {
      await turn(browser);
      await settle(browser);
      assert.equal(await browser.ask("camplot.view.quarters"), quarters % 4);
      await assertCentre(browser, middle);
      const now = await colours(browser, points), same = now.filter((colour, at) => colour === seen[at]).length;
      assert.ok(same >= points.length - 3, `${quarters}: ${same} of ${points.length}`);
    }
    assert.deepEqual(browser.complaints(), []);
  });

  for (const isBelow of [false, true]) {
    test(`clicks, drags, boxes, arrows and the wheel go with them${isBelow ? ", from below too" : ""}`, async () => {
      const browser = await withPads();
      await browser.ask("camplot.view.fit({ left: -1000000, low: -4000000, right: 7000000, high: 4000000 })");
      if (isBelow) await press(browser, "[data-act=below]");
      await press(browser, "[data-act=quarter]");
      await settle(browser);
      assert.equal(await browser.ask("document.querySelector('[data-act=quarter]').getAttribute('aria-pressed')"), "true");
      // The row of pads is upright: to the right of the board is up, from below down.
      const [first, second] = [await onPage(browser, 0, 0), await onPage(browser, 2000000, 0)];
      assert.ok(Math.abs(first[0] - second[0]) < 1 && (isBelow ? second[1] > first[1] : second[1] < first[1]), `${first} ${second}`);
      await clickAt(browser, 2000000, 0);
      await idle(browser);
      assert.deepEqual(await picked(browser), ["top 1 flash 10 2000000 0 r0 dark"]);
      // To the right on the canvas is down on the board.
      await browser.key("ArrowRight");
      await idle(browser);
      assert.equal(await lastLine(browser), "move top 1 0 -10000 -> ok");
      await browser.key("ArrowUp");
      await idle(browser);
      assert.equal(await lastLine(browser), `move top 1 ${isBelow ? "-" : ""}10000 0 -> ok`);
      await browser.key("z");
      await browser.drag(second, [second[0] + 30, second[1]]);
      await idle(browser);
      const [, dx, dy] = /^move top 1 (-?\d+) (-?\d+) -> ok$/.exec(await lastLine(browser)).map(Number);
      assert.ok(dx === 0 && Math.abs(dy + 30 * await browser.ask("camplot.view.pitch")) < 20000, `${dx} ${dy}`);
      // A box to the right picks what lies in it, one to the left what it touches.
      const box = [[first[0] - 100, Math.min(first[1], second[1]) - 20], [first[0] + 10, Math.max(first[1], second[1]) + 20]];
      await browser.drag(...box);
      await idle(browser);
      assert.equal((await picked(browser)).length, 0);
      await browser.drag([box[1][0], box[0][1]], [box[0][0], box[1][1]]);
      await idle(browser);
      assert.equal((await picked(browser)).length, 2);
      await browser.mouse("mouseMoved", ...first);
      await browser.mouse("mouseWheel", ...first, { deltaX: 0, deltaY: -300 });
      await settle(browser);
      const now = await onPage(browser, 0, 0);
      assert.ok(Math.hypot(now[0] - first[0], now[1] - first[1]) < 1.5, `${now} ${first}`);
      await browser.drag(now, [now[0] + 40, now[1] + 25], "right");
      const panned = await onPage(browser, 0, 0);
      assert.ok(Math.hypot(panned[0] - now[0] - 40, panned[1] - now[1] - 25) < 1.5, `${panned}`);
      assert.match(await browser.ask("camplot.going.link()"), isBelow ? /,below,turned90$/ : /\d,turned90$/);
      assert.deepEqual(browser.complaints(), []);
    });
  }

  test("are kept, fit the board, and the rulers are those of what lies beside them", async () => {
    const browser = await openPage();
    await give(browser, [{ name: "a.gtl", bytes: gerber("X0Y0D03*", "X30000000Y0D03*") }]);
    await turn(browser);
    await browser.key("0");
    await idle(browser);
    await settle(browser);
    const ends = [await onPage(browser, 0, 0), await onPage(browser, 30000000, 0)];
    const stage = JSON.parse(await browser.ask("JSON.stringify(document.getElementById('marks').getBoundingClientRect())"));
    assert.ok(ends.every(([x, y]) => x > stage.left && x < stage.right && y > stage.top && y < stage.bottom), `${ends}`);
    assert.ok(Math.abs(ends[0][1] - ends[1][1]) > 0.8 * stage.height, `${ends}`);
    await browser.ask(`globalThis.told = []; const { fillText } = CanvasRenderingContext2D.prototype;
      CanvasRenderingContext2D.prototype.fillText = function(words, ...more) { told.push(words); fillText.call(this, words, ...more); };`);
    await browser.mouse("mouseMoved", stage.left + 300, stage.top + 200);
    await browser.wait("told.includes('30') && told.includes('0') && told.includes('-5')", 60);
    await idle(browser);
    await reload(browser);
    assert.equal(await browser.ask("camplot.view.quarters"), 1);
    assert.equal((await lines(browser)).length, 1);
    assert.deepEqual(browser.complaints(), []);
  });

  test("stand in links", () => {
    const place = { x: 1000000, y: -2, zoom: 4000, isMirrored: true, quarters: 3 };
    assert.equal(linkOf(place), "#1.000,-0.000002,4000,below,turned270");
    assert.deepEqual(placeIn(linkOf(place)), place);
    assert.deepEqual(placeIn("#1,2,turned90"), { x: 1000000, y: 2000000, zoom: null, isMirrored: false, quarters: 1 });
    for (const hash of ["#1,2,turned45", "#1,2,turned", "#1,2,turned90,below", "#1,2,3,turned360"]) assert.equal(placeIn(hash), null);
  });
});

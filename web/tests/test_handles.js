// An item that is picked is given another shape by its handles: the ends of a draw, of an arc, the corners of a region.

import assert from "node:assert/strict";
import { CTRL, clickAt, gerber, give, lines, onPage, openPage, picked, run, settle, text } from "./support.js";
import { dragNear } from "./snapping.js";
import { handlesOf, reshaped } from "../machine/handles.js";
import { idle } from "./looking.js";
import { suite, test } from "../../tools/tests/harness.js";

const linesAlone = async (browser) => (await lines(browser)).map((line) => line.split(" -> ")[0]);

async function withItems() {
  const browser = await openPage();
  await give(browser, [{ name: "a.gtl", bytes: gerber("X0Y0D02*", "X4000000Y0D01*", "X2000000Y2000000D02*", "G03X-2000000Y2000000I-2000000J0D01*", "G01*",
    "G36*", "X6000000Y0D02*", "X9000000Y0D01*", "X9000000Y3000000D01*", "X6000000Y3000000D01*", "X6000000Y0D01*", "G37*", "X8000000Y-2000000D03*") }]);
  await browser.ask("camplot.view.fit({ left: -3000000, low: -3000000, right: 10000000, high: 5000000 })");
  await settle(browser);
  return browser;
}

suite("handles", () => {
  test("of each kind of item, and the words that they make", () => {
    assert.deepEqual(handlesOf("draw 10 1 2 3 4 r90 clear"), [[1, 2], [3, 4]]);
    assert.equal(reshaped("draw 10 1 2 3 4 r90 clear", 1, [7, -8]), "draw 10 1 2 7 -8 r90 clear");
    assert.equal(reshaped("rout 2 0 0 5 5 9 0", 1, [5, 6]), "rout 2 0 0 5 6 9 0");
    assert.deepEqual(handlesOf("arc 10 1000 0 -1000 0 0 0 ccw dark"), [[1000, 0], [-1000, 0], [0, 1000]]);
    // An end elsewhere: through the middle as before. The middle elsewhere: through it.
    assert.equal(reshaped("arc 10 1000 0 -1000 0 0 0 ccw dark", 1, [-1000, 1000]), "arc 10 1000 0 -1000 1000 -500 -500 ccw dark");
    assert.equal(reshaped("arc 10 1000 0 -1000 0 0 0 ccw dark", 1, [-1000, 2000]), null);
    assert.equal(reshaped("arc 10 1000 0 -1000 0 0 0 ccw dark", 2, [0, -1000]), "arc 10 1000 0 -1000 0 0 0 cw dark");
    assert.equal(reshaped("arc 10 1000 0 -1000 0 0 0 ccw dark", 2, [0, 0]), null);
    assert.equal(reshaped("arc 10 1000 0 -1000 0 0 0 ccw dark", 1, [1000, 0]), null);
    assert.deepEqual(handlesOf("arc 10 5 0 5 0 0 0 cw dark"), [[5, 0]]);
    assert.equal(reshaped("arc 10 5 0 5 0 0 0 cw dark", 0, [0, 9]), "arc 10 0 9 0 9 0 0 cw dark");
    const square = "region clear 0 0 l 9 0 l 9 9 l 0 9 l 0 0";
    assert.deepEqual(handlesOf(square), [[0, 0], [9, 0], [9, 9], [0, 9]]);
    assert.equal(reshaped(square, 0, [-1, -2]), "region clear -1 -2 l 9 0 l 9 9 l 0 9 l -1 -2");
    assert.equal(reshaped(square, 2, [10, 11]), "region clear 0 0 l 9 0 l 10 11 l 0 9 l 0 0");
    // The arc beside a corner goes through its middle as before; another corner at the same place stays.
    assert.equal(reshaped("region dark 0 0 l 1000 0 l 1000 1000 ccw 0 1000 500 1000 l 0 0", 3, [0, 500]),
      "region dark 0 0 l 1000 0 l 1000 1000 ccw 0 500 417 917 l 0 0");
    assert.equal(reshaped("region dark 0 0 l 5 0 l 5 5 l 0 0 l -5 0 l 0 0", 3, [1, 1]), "region dark 0 0 l 5 0 l 5 5 l 1 1 l -5 0 l 0 0");
    assert.equal(reshaped("region dark 0 0 ccw 0 0 5 0", 0, [1, 0]), "region dark 1 0 ccw 1 0 5 0");
    assert.deepEqual(["flash 10 0 0 r0 dark", "hit 1 0 0", "repeat 1 2 3 4 5"].map(handlesOf), [[], [], []]);
  });

  test("a draw's end is dragged by the grid: one step, at the same place of the list, and one undo takes it back", async () => {
    const browser = await withItems(), before = (await linesAlone(browser)).length;
    await clickAt(browser, 2000000, 0);
    await idle(browser);
    assert.equal(await browser.ask("camplot.marks.signs.seenHandles().length"), 2);
    await dragNear(browser, [4000000, 0], [5003000, -1996000]);
    const made = (await linesAlone(browser)).slice(before), [, x, y] = /^insert top 0 draw 10 0 0 (\d+) (-\d+) r0 dark$/.exec(made[2]).map(Number);
    assert.deepEqual([made[0], made[1], made[3]], ["begin", "delete top 0", "end"]);
    assert.ok(x % 10000 === 0 && y % 10000 === 0 && Math.abs(x - 5000000) < 40000 && Math.abs(y + 2000000) < 40000, made[2]);
    assert.deepEqual(await picked(browser), [`top 0 draw 10 0 0 ${x} ${y} r0 dark`]);
    assert.match(await text(browser, "history"), /replace 1 item/);
    await browser.key("z", CTRL);
    await idle(browser);
    await clickAt(browser, 2000000, 0);
    await idle(browser);
    assert.deepEqual(await picked(browser), ["top 0 draw 10 0 0 4000000 0 r0 dark"]);
    assert.equal(await browser.ask("camplot.steps.undone.length"), 1);
    assert.deepEqual(browser.complaints(), []);
  });

  test("an end snaps to another item, and not to its own", async () => {
    const browser = await withItems();
    await clickAt(browser, 2000000, 0);
    await idle(browser);
    assert.deepEqual(await dragNear(browser, [4000000, 0], [8000000, -2000000], { besideEnd: [4, 3] }), ["centre", "top 3", 8000000, -2000000]);
    assert.deepEqual(await picked(browser), ["top 0 draw 10 0 0 8000000 -2000000 r0 dark"]);
    // A little way: what is near is the draw itself.
    assert.equal(await dragNear(browser, [0, 0], [300000, 300000]), null);
    assert.deepEqual(browser.complaints(), []);
  });

  test("an arc's middle and a region's corner are dragged; clicks without a drag change nothing", async () => {
    const browser = await withItems();
    await clickAt(browser, 0, 4000000);
    await idle(browser);
    assert.deepEqual(await picked(browser), ["top 1 arc 10 2000000 2000000 -2000000 2000000 0 2000000 ccw dark"]);
    await dragNear(browser, [0, 4000000], [0, 3000000]);
    const [arc] = await picked(browser), [, cx, cy] = /^top 1 arc 10 2000000 2000000 -2000000 2000000 (-?\d+) (-?\d+) ccw dark$/.exec(arc).map(Number);
    assert.ok(Math.abs(cx) < 1 && Math.abs(cy - 500000) < 60000, arc);
    const before = (await lines(browser)).length;
    await clickAt(browser, 2000000, 2000000);
    await idle(browser);
    assert.equal((await lines(browser)).length, before);
    await clickAt(browser, 7500000, 1500000);
    await idle(browser);
    await dragNear(browser, [9000000, 3000000], [9500000, 4000000]);
    const [region] = await picked(browser);
    assert.match(region, /^top 2 region dark 6000000 0 l 9000000 0 l 9\d\d0000 (39|40)\d0000 l 6000000 3000000 l 6000000 0$/);
    assert.deepEqual(browser.complaints(), []);
  });

  test("what was changed meanwhile, an open group and a refused line leave the item as it is", async () => {
    const browser = await withItems();
    await clickAt(browser, 2000000, 0);
    await idle(browser);
    await run(browser, "begin");
    await dragNear(browser, [4000000, 0], [5000000, 1000000]);
    assert.match(await text(browser, "told"), /A group is open: end it first\./);
    await run(browser, "end");
    const [from, to] = [await onPage(browser, 4000000, 0), await onPage(browser, 5000000, -1000000)];
    await browser.mouse("mouseMoved", ...from);
    await browser.mouse("mousePressed", ...from, { button: "left", clickCount: 1 });
    await browser.mouse("mouseMoved", ...to, { button: "left", buttons: 1 });
    await run(browser, "move top 0 10000 0");
    await browser.mouse("mouseReleased", ...to, { button: "left", clickCount: 1 });
    await idle(browser);
    assert.match(await text(browser, "told"), /What was picked is another by now/);
    assert.deepEqual(await picked(browser), ["top 0 draw 10 10000 0 4010000 0 r0 dark"]);
    assert.equal(await browser.ask("camplot.marks.signs.reshaped"), null);
    assert.deepEqual(browser.complaints(), []);
  });
});

// What lies under a click: a region gives way to what lies on it, and a menu lists all items there.

import assert from "node:assert/strict";
import { SHIFT, clickAt, gerber, give, lines, onPage, openPage, picked, run, settle, text } from "./support.js";
import { idle } from "./looking.js";
import { openDevice, swipe, tap, tapOn } from "./fingers.js";
import { suite, test } from "../../tools/tests/harness.js";

const square = (side) => ["G36*", `X-${side}Y-${side}D02*`, `G01X${side}Y-${side}D01*`, `X${side}Y${side}D01*`, `X-${side}Y${side}D01*`,
  `X-${side}Y-${side}D01*`, "G37*"];

// Below a pad and a draw on the top layer, above them a pour; and a pad on the bottom layer.
async function withPour(browser) {
  browser ??= await openPage();
  await give(browser, [{ name: "a.gtl", bytes: gerber("X0Y0D03*", "X-3000000Y0D02*", "X3000000Y0D01*", ...square(4000000)) },
    { name: "b.gbl", bytes: gerber("X0Y0D03*", ...square(5000000)) }]);
  await browser.ask("camplot.view.fit({ left: -6000000, low: -6000000, right: 6000000, high: 6000000 })");
  await settle(browser);
  return browser;
}

const places = async (browser) => (await picked(browser)).map((words) => words.split(" ").slice(0, 3).join(" "));
const rows = (browser) => browser.ask("[...document.querySelectorAll('#lying button')].map((row) => row.textContent)");
const isOpen = (browser) => browser.ask("!document.getElementById('lying').hidden");

async function rightClick(browser, x, y) {
  const [left, top] = await onPage(browser, x, y);
  await browser.mouse("mouseMoved", left, top);
  await browser.mouse("mousePressed", left, top, { button: "right", clickCount: 1 });
  await browser.mouse("mouseReleased", left, top, { button: "right", clickCount: 1 });
  await idle(browser);
}

suite("a click on a pour", () => {
  test("asks for what lies on it first, layer by layer, and then for the pour", async () => {
    const browser = await withPour(), found = [];
    for (let turn = 0; turn < 6; turn++) {
      await clickAt(browser, 0, 0);
      await idle(browser);
      found.push(...await places(browser));
    }
    assert.deepEqual(found, ["top 1 draw", "top 0 flash", "top 2 region", "bottom 0 flash", "bottom 1 region", "top 1 draw"]);
    await clickAt(browser, 0, 3500000);
    await idle(browser);
    assert.deepEqual(await places(browser), ["top 2 region"]);
    assert.deepEqual(browser.complaints(), []);
  });
});

suite("the menu of what lies at a point", () => {
  test("by the mouse: all items of the shown layers, the topmost first", async () => {
    const browser = await withPour();
    await rightClick(browser, 0, 0);
    assert.deepEqual(await rows(browser), ["top copper 2 region of 4 sides, 8.000 by 8.000 mm", "top copper 1 draw of aperture 10, 7.000 by 1.000 mm",
      "top copper 0 flash of aperture 10, 1.000 by 1.000 mm", "bottom copper 1 region of 4 sides, 10.000 by 10.000 mm",
      "bottom copper 0 flash of aperture 10, 1.000 by 1.000 mm"]);
    const [x, y] = JSON.parse(await browser.ask(`(() => { const box = document.querySelectorAll("#lying button")[4].getBoundingClientRect();
      return JSON.stringify([box.x + 20, box.y + box.height / 2]); })()`));
    await browser.mouse("mouseMoved", x, y);
    assert.equal(await browser.ask("camplot.marks.signs.listed.name"), "bottom");
    await browser.click(x, y);
    await idle(browser);
    assert.deepEqual(await places(browser), ["bottom 0 flash"]);
    assert.equal(await isOpen(browser), false);
    assert.equal(await browser.ask("camplot.marks.signs.listed"), null);
    // Shift adds; a drag by the right button pans, and a press beside the menu closes it.
    await rightClick(browser, 0, 0);
    await browser.click(...JSON.parse(await browser.ask(`(() => { const box = document.querySelector("#lying button").getBoundingClientRect();
      return JSON.stringify([box.x + 20, box.y + box.height / 2]); })()`)), SHIFT);
    await idle(browser);
    assert.deepEqual(await places(browser), ["bottom 0 flash", "top 2 region"]);
    await browser.drag(await onPage(browser, 0, 0), await onPage(browser, 1000000, 0), "right");
    assert.equal(await isOpen(browser), false);
    await rightClick(browser, 0, 0);
    assert.equal(await isOpen(browser), true);
    await clickAt(browser, 0, -3500000);
    await idle(browser);
    assert.equal(await isOpen(browser), false);
    await rightClick(browser, -5500000, 5500000);
    assert.equal(await text(browser, "told"), "Nothing lies there.");
    assert.equal((await lines(browser)).length, 2);
    assert.deepEqual(browser.complaints(), []);
  });

  test("by keys, and Escape leaves it", async () => {
    const browser = await withPour();
    await browser.mouse("mouseMoved", ...await onPage(browser, 0, 0));
    await browser.key("e");
    await idle(browser);
    assert.equal((await rows(browser)).length, 5);
    await browser.key("ArrowDown");
    await browser.key("ArrowDown");
    await browser.key("Enter");
    await idle(browser);
    assert.deepEqual(await places(browser), ["top 0 flash"]);
    assert.equal(await browser.ask("document.activeElement.id"), "marks");
    await browser.key("e");
    await idle(browser);
    await browser.key("ArrowUp");
    await browser.key("Escape");
    await idle(browser);
    assert.equal(await isOpen(browser), false);
    assert.deepEqual(await places(browser), ["top 0 flash"]);
    // A line that comes meanwhile closes it.
    await browser.key("e");
    await idle(browser);
    await run(browser, "delete top 1");
    assert.equal(await isOpen(browser), false);
    assert.deepEqual(browser.complaints(), []);
  });

  test("by a finger that is held and lifted, and a tap", async () => {
    const browser = await withPour(await openDevice(1024, 768, 1)), at = await onPage(browser, 0, 0);
    // (a browser vibrates only for one who has tapped)
    await tap(browser, await onPage(browser, 5900000, 5900000));
    await swipe(browser, [at], [at], { held: 900, steps: 1 });
    await idle(browser);
    assert.deepEqual(await places(browser), ["top 1 draw"]);
    assert.equal((await rows(browser)).length, 5);
    await tapOn(browser, "#lying button:nth-child(4)");
    await idle(browser);
    assert.deepEqual(await places(browser), ["bottom 1 region"]);
    assert.equal(await isOpen(browser), false);
    // A tap elsewhere closes it.
    await swipe(browser, [at], [at], { held: 900, steps: 1 });
    await idle(browser);
    assert.equal(await isOpen(browser), true);
    await tap(browser, await onPage(browser, 5900000, 5900000));
    await idle(browser);
    assert.equal(await isOpen(browser), false);
    assert.deepEqual(browser.complaints(), []);
  });

  test("a choice of a board that was changed meanwhile picks nothing", async () => {
    const browser = await withPour();
    await rightClick(browser, 0, 0);
    await browser.ask("camplot.run(['delete top 1']); document.querySelectorAll('#lying button')[0].click()");
    await idle(browser);
    assert.deepEqual(await places(browser), []);
    assert.match(await text(browser, "told"), /The board was changed meanwhile/);
  });
});

// The page in small windows: the board has room, panels fold away, and on a phone they are drawers over the board.

import assert from "node:assert/strict";
import { give, kicad, openPage, picked, PAD, onPage, settle } from "./support.js";
import { openDevice, screen, tap, tapOn } from "./fingers.js";
import { stroke, tabTo } from "./keyboard.js";
import { suite, test } from "../../tools/tests/harness.js";

const idle = (browser) => browser.ask("camplot.idle()");

// The board's width and height, and which panels are seen.
const room = (browser) => browser.ask(`(() => { const { width, height } = document.getElementById("marks").getBoundingClientRect();
  return [Math.round(width), Math.round(height)]; })()`);
const seen = (browser) => browser.ask(`["commands", "left", "right", "script"].filter((id) =>
  document.querySelector(id === "commands" ? "#commands [data-act=open]" : "#" + id).checkVisibility())`);
// What reaches out of the window, so that a person would have to scroll the page.
const over = (browser) => browser.ask(`[document.documentElement.scrollWidth - innerWidth, document.documentElement.scrollHeight - innerHeight]`);

async function withBoard(open) {
  const browser = await open();
  await give(browser, kicad());
  await settle(browser);
  await idle(browser);
  return browser;
}

// A drag of files over the page, or its end.
const dragFiles = (browser, type) => browser.call("Input.dispatchDragEvent", { type, x: 500, y: 300,
  data: { items: [], files: ["/tmp/board.gtl"], dragOperationsMask: 1 } });

suite("windows", () => {
  test("of 1024 by 700: the board has 700 by 500 pixels, with a panel open too", async () => {
    const browser = await withBoard(() => openPage({ width: 1024, height: 700 }));
    assert.deepEqual(await seen(browser), ["commands", "left"]);
    const enough = async () => {
      const [width, height] = await room(browser);
      assert.ok(width >= 700 && height >= 500, `${width} ${height}`);
    };
    await enough();
    await screen(browser, "1024x700");
    await stroke(browser, "w");
    assert.deepEqual(await seen(browser), ["commands", "left", "right"]);
    await enough();
    // The board is worked on beside it.
    await browser.click(...await onPage(browser, 110000000, -85000000));
    await screen(browser, "1024x700-right");
    await stroke(browser, "Escape");
    assert.deepEqual(await seen(browser), ["commands", "left"]);
    await stroke(browser, "q");
    assert.deepEqual(await seen(browser), ["commands"]);
    await stroke(browser, "s");
    assert.deepEqual(await seen(browser), ["commands", "script"]);
    await stroke(browser, "s");
    // All of the window but for the tools at its left edge and the view's commands at its right one.
    const strips = await browser.ask(`["tools", "views"].reduce((sum, id) => sum + document.getElementById(id).offsetWidth, 0)`);
    const [width] = await room(browser);
    assert.ok(width + strips > 1000 && strips < 80, `${width} ${strips}`);
    assert.deepEqual(await over(browser), [0, 0]);
  });

  test("of 1280 by 800: all panels, each folded and unfolded by its button", async () => {
    const browser = await withBoard(() => openPage());
    assert.deepEqual(await seen(browser), ["commands", "left", "right", "script"]);
    for (const [panel, id] of [["left", "left"], ["right", "right"], ["foot", "script"]]) {
      const before = await room(browser), button = `[data-act=panel-${panel}]`;
      await tabTo(browser, button, { isBack: true });
      await stroke(browser, "Enter");
      assert.ok(!(await seen(browser)).includes(id));
      const [width, height] = await room(browser);
      assert.ok(width > before[0] || height > before[1]);
      assert.equal(await browser.ask(`document.querySelector("${button}").getAttribute("aria-expanded")`), "false");
      await stroke(browser, "Enter");
      assert.ok((await seen(browser)).includes(id));
      assert.deepEqual(await room(browser), before);
    }
  });

  test("a tablet at twice the pixels", async () => {
    const browser = await withBoard(() => openDevice(1024, 768, 2));
    await screen(browser, "tablet");
    assert.deepEqual(await seen(browser), ["commands", "left", "script"]);
    assert.deepEqual(await over(browser), [0, 0]);
    const [width, height] = await room(browser);
    assert.ok(width >= 700 && height >= 380, `${width} ${height}`);
  });

  test("a phone: drawers over the board, one at a time", async () => {
    const browser = await openDevice(390, 844, 3);
    await screen(browser, "phone-first");
    assert.deepEqual(await seen(browser), []);
    await give(browser, kicad());
    await settle(browser);
    await idle(browser);
    const whole = await room(browser);
    assert.ok(whole[0] === 390 && whole[1] > 650, `${whole}`);
    await tapOn(browser, "[data-act=panel-left]");
    assert.deepEqual(await seen(browser), ["left"]);
    assert.deepEqual(await room(browser), whole);
    await screen(browser, "phone-left");
    const isShown = await browser.ask("camplot.state.layers[0].isShown");
    await tapOn(browser, "#layers li:last-child input[type=checkbox]");
    assert.equal(await browser.ask("camplot.state.layers[0].isShown"), !isShown);
    await tapOn(browser, "[data-act=panel-commands]");
    assert.deepEqual(await seen(browser), ["commands"]);
    await screen(browser, "phone-commands");
    await tapOn(browser, "[data-act=fit]");
    // A tap beside a drawer closes it, and picks nothing.
    await tapOn(browser, "[data-act=panel-right]");
    await screen(browser, "phone-right");
    await tap(browser, [20, 500]);
    assert.deepEqual(await seen(browser), []);
    await tap(browser, await onPage(browser, ...PAD));
    await idle(browser);
    assert.equal((await picked(browser)).length, 1);
    await screen(browser, "phone-picked");
    await tapOn(browser, "[data-act=panel-foot]");
    assert.deepEqual(await seen(browser), ["script"]);
    assert.deepEqual(await over(browser), [0, 0]);
    await screen(browser, "phone-script");
    assert.deepEqual(browser.complaints(), []);
  });

  test("what comes to a drawer that is closed is marked on its button", async () => {
    const browser = await openDevice(390, 844, 3), button = "[data-act=panel-left]";
    const isMarked = () => browser.ask(`getComputedStyle(document.querySelector("${button}"), "::after").content !== "none"`);
    assert.equal(await isMarked(), false);
    await give(browser, [{ name: "bad.gtl", bytes: Buffer.from("%FSLAX46Y46*%\nX0Y0D03*\n") }]);
    await idle(browser);
    assert.equal(await isMarked(), true);
    await tapOn(browser, button);
    assert.equal(await isMarked(), false);
    await screen(browser, "phone-refused");
  });

  test("a drawer gets the focus, and its button has it again", async () => {
    const browser = await openPage({ width: 900, height: 700 });
    await tabTo(browser, "[data-act=panel-left]");
    await stroke(browser, "Enter");
    await stroke(browser, "Tab");
    assert.equal(await browser.ask("document.getElementById('left').contains(document.activeElement)"), true);
    await stroke(browser, "Escape");
    assert.deepEqual(await seen(browser), ["commands"]);
    assert.equal(await browser.ask("document.activeElement.dataset.act"), "panel-left");
  });

  test("files that are dragged over the page are shown where they go", async () => {
    const browser = await openPage({ width: 1024, height: 700 });
    const isShown = () => browser.ask("document.getElementById('dropping').checkVisibility()");
    assert.equal(await isShown(), false);
    await dragFiles(browser, "dragEnter");
    await dragFiles(browser, "dragOver");
    assert.equal(await isShown(), true);
    await screen(browser, "dropping");
    await dragFiles(browser, "dragCancel");
    await browser.wait("!document.getElementById('dropping').checkVisibility()", 60);
  });
});

// The first minute: what an empty page offers, commands with their icons and reasons, the list of all commands, and a board that
// stays fitted until a person moves it.

import assert from "node:assert/strict";
import { CTRL, PAD, clickAt, give, kicad, onPage, openPage, settle, text, withBoard, withPads, gerber } from "./support.js";
import { onDisk, drop, press } from "./hands.js";
import { screen } from "./fingers.js";
import { stroke, strokes } from "./keyboard.js";
import { rest } from "./seen.js";
import { suite, test } from "../../tools/tests/harness.js";
import { tabs } from "./tab.js";

const open = tabs();
const idle = (browser) => browser.ask("camplot.idle()");
const isSeen = (browser, selector) => browser.ask(`document.querySelector(${JSON.stringify(selector)}).checkVisibility()`);
const cards = (browser) => browser.ask("[...document.querySelectorAll('#kept-list li')].map((one) => "
  + "[one.querySelector('b').textContent, ...[...one.querySelectorAll('small')].map((words) => words.textContent)])");
const openExample = async (browser) => {
  await press(browser, "#nothing [data-act=example]");
  await browser.wait("camplot.state.layers.length === 8", 60);
  await rest(browser);
};

// How much of the view is free at each side of a box, of what the rulers leave: left, right, above, below.
const gaps = (browser, box) => browser.ask(`(() => {
  const { canvas, density } = camplot.view, edge = 20 * density, width = canvas.width - edge, height = canvas.height - edge;
  const box = ${JSON.stringify(box)}, corners = [camplot.view.placeOf(box.left, box.high), camplot.view.placeOf(box.right, box.low)];
  const [left, right] = corners.map(({ x }) => x - edge).sort((one, other) => one - other);
  const [above, below] = corners.map(({ y }) => y - edge).sort((one, other) => one - other);
  return [left / width, 1 - right / width, above / height, 1 - below / height];
})()`);

// The page at rest shows the box with a margin of a twentieth.
async function isFitted(browser, box) {
  const [left, right, above, below] = await gaps(browser, box), least = Math.min(left, above);
  const isEven = Math.abs(left - right) < 0.01 && Math.abs(above - below) < 0.01;
  return isEven && least >= 0.0499 && least < 0.056;
}

// Opens the list of commands, types, and tells what it lists.
async function typed(browser, words) {
  await stroke(browser, "k", CTRL);
  assert.equal(await browser.ask("document.getElementById('palette').open"), true);
  await strokes(browser, words);
  return browser.ask("[...document.querySelectorAll('#palette-list [role=option]')].map((one) => one.dataset.command)");
}

suite("an empty page", () => {
  test("offers files, a folder and an example, which opens", async () => {
    const browser = await openPage({ width: 1440, height: 900 });
    assert.equal(await isSeen(browser, "#nothing"), true);
    for (const act of ["open", "open-folder", "example"]) assert.equal(await isSeen(browser, `#nothing [data-act=${act}]`), true, act);
    assert.equal(await isSeen(browser, "#kept-boards"), false);
    await screen(browser, "start");
    await openExample(browser);
    assert.equal(await isSeen(browser, "#nothing"), false);
    const files = kicad();
    assert.deepEqual(await browser.ask("camplot.state.layers.map(({ file }) => file).sort()"), files.map(({ name }) => name).sort());
    // It is the files of examples/, byte for byte.
    const held = await browser.ask("Object.values(camplot.state.files).map(({ name, bytes }) => [name, Array.from(bytes)])");
    for (const { name, bytes } of files) assert.deepEqual(held.find(([other]) => other === name)[1], [...bytes], name);
    assert.deepEqual(browser.complaints(), []);
  });

  test("lists the boards that the browser keeps, with picture, size and date", async () => {
    const browser = await openPage({ width: 1440, height: 900 });
    await openExample(browser);
    await browser.wait("camplot.machine.kept.looks?.face?.length > 500", 60);
    await press(browser, "[data-act=new-board]");
    await rest(browser);
    await browser.wait("document.querySelectorAll('#kept-list li').length === 1", 20);
    const [[title, size, date, where]] = await cards(browser);
    assert.deepEqual([title, size, where], ["nightlight", "8 layers, 22 kB", "in a tab"]);
    assert.match(date, /^\d+ \w{3} \d{4}, \d\d:\d\d$/);
    assert.ok(Math.abs(Date.parse(date) - Date.now()) < 10 * 60000, date);
    // Its picture has the blue of the bottom copper.
    const blue = `(() => { const { width, height, getContext } = document.querySelector("#kept-list canvas");
      const { data } = document.querySelector("#kept-list canvas").getContext("2d").getImageData(0, 0, width, height);
      let count = 0;
      for (let at = 0; at < data.length; at += 4) if (data[at + 2] > 150 && data[at] < 100) count++;
      return count / (width * height); })()`;
    await browser.wait(`${blue} > 0.4`, 20);
    await screen(browser, "kept");
    await press(browser, "#kept-list button");
    await rest(browser);
    assert.deepEqual([await browser.ask("camplot.state.layers.length"), await isSeen(browser, "#nothing")], [8, false]);
    assert.deepEqual(browser.complaints(), []);
  });

  test("takes a board over from another window, whose name stays text", async () => {
    const first = await open(), name = "<b onclick=x>lamp";
    await drop(first, onDisk({ [`${name}.gtl`]: gerber("X0Y0D03*") }));
    await first.wait("camplot.state.layers.length === 1", 60);
    await rest(first);
    const second = await open({ context: first.context });
    await rest(second);
    await second.wait("document.querySelectorAll('#kept-list li').length === 1", 20);
    const [[title, size, , where]] = await cards(second);
    assert.deepEqual([title, size, where], [name, "1 layer, 1 kB", "in another window"]);
    await press(second, "#kept-list button");
    await second.wait("camplot.state.layers.length === 1", 60);
    await rest(first);
    await first.wait("document.getElementById('nothing').checkVisibility()", 20);
    assert.equal(await first.ask("camplot.state.layers.length"), 0);
  });
});

suite("commands", () => {
  test("each button has an icon of one grid with its word, in one row above and at the edges of the board", async () => {
    const browser = await openPage({ width: 1440, height: 900 });
    const poor = await browser.ask(`[...document.querySelectorAll("#bar button[data-act], .strip button[data-act]")]
      .filter((one) => one.checkVisibility()).filter((one) => one.querySelector("svg")?.getAttribute("viewBox") !== "0 0 16 16"
        || one.querySelector("svg").getBoundingClientRect().width !== 16 || !one.querySelector(".word")?.textContent)
      .map((one) => one.dataset.act)`);
    assert.deepEqual(poor, []);
    assert.ok(await browser.ask("document.querySelectorAll('.strip button svg').length") > 15);
    const box = (id) => browser.ask(`(({ left, right, top, bottom, height }) => ({ left, right, top, bottom, height }))(document.getElementById("${id}").getBoundingClientRect())`);
    const [bar, tools, stage, views] = [await box("bar"), await box("tools"), await box("stage"), await box("views")];
    assert.ok(bar.height < 50, `the bar is ${bar.height} pixels high`);
    assert.deepEqual([tools.right, views.left, tools.top, views.bottom], [stage.left, stage.right, stage.top, stage.bottom]);
    // None is cut off.
    assert.deepEqual(await browser.ask("['tools', 'views'].map((id) => document.getElementById(id)).map((one) => one.scrollHeight - one.clientHeight)"), [0, 0]);
  });

  test("what cannot be done now is grey, and says why", async () => {
    const browser = await openPage({ width: 1440, height: 900 });
    const told = (act) => browser.ask(`(({ ariaDisabled, title, ariaDescription }) => [ariaDisabled, title, ariaDescription])(document.querySelector("[data-act=${act}]"))`);
    const no = (why) => ["true", why, why];
    for (const act of ["save", "save-layer", "plot", "flash", "hit"]) assert.deepEqual(await told(act), no("No layer is open."), act);
    for (const act of ["delete", "copy"]) assert.deepEqual(await told(act), no("Nothing is picked."), act);
    assert.deepEqual(await told("undo"), no("Nothing is there to undo."));
    assert.deepEqual(await told("close-board"), no("No board is open."));
    await give(browser, kicad());
    await settle(browser);
    await idle(browser);
    assert.deepEqual(await told("save"), ["false", "Save all layers (Ctrl S)", null]);
    assert.deepEqual(await told("close-board"), ["false", "Close the board", null]);
    assert.deepEqual(await told("paste"), no("Nothing was copied."));
    await clickAt(browser, ...PAD);
    await idle(browser);
    assert.deepEqual(await told("delete"), ["false", "Delete what is picked (Delete)", null]);
    await stroke(browser, "c", CTRL);
    await idle(browser);
    assert.equal((await told("paste"))[0], "false");
    await stroke(browser, "Delete");
    await idle(browser);
    assert.deepEqual([(await told("undo"))[0], (await told("redo"))[0]], ["false", "true"]);
  });

  test("Ctrl K lists all by name, filters them as one types, and Enter runs", async () => {
    const browser = await withPads();
    await stroke(browser, "k", CTRL);
    await screen(browser, "palette");
    // All that the table has, but for the list itself and the drawer of the commands; each key of the page of keys.
    const rows = await browser.ask("[...document.querySelectorAll('#palette-list [role=option]')].map((one) => [one.querySelector('.label').firstChild.data, ...[...one.querySelectorAll('kbd')].map((key) => key.textContent)])");
    assert.ok(rows.length > 70, `${rows.length}`);
    await stroke(browser, "Escape");
    assert.equal(await browser.ask("document.getElementById('palette').open"), false);
    await stroke(browser, "?");
    assert.equal(await browser.ask("document.getElementById('keys').open"), true);
    const keys = await browser.ask("[...document.querySelectorAll('#keys-body dt')].map((one) => [one.nextSibling.textContent, ...[...one.querySelectorAll('kbd')].map((key) => key.textContent)])");
    assert.deepEqual(keys.filter(([label]) => label.startsWith("All commands")), [["All commands by their names", "Ctrl K"]]);
    for (const [label, ...its] of keys.filter(([words]) => !words.startsWith("All commands"))) {
      assert.deepEqual(rows.find(([other]) => other === label)?.slice(1), its.slice(0, 2), label);
    }
    await stroke(browser, "Escape");
    assert.equal((await typed(browser, "below"))[0], "below");
    await stroke(browser, "Enter");
    assert.deepEqual(await browser.ask("[camplot.view.isMirrored, document.getElementById('palette').open]"), [true, false]);
    // The arrows mark another one; words may stand in any order.
    const found = await typed(browser, "layer show");
    assert.deepEqual(found, ["only", "toggle", "all"]);
    await stroke(browser, "ArrowDown");
    await stroke(browser, "Enter");
    assert.equal(await browser.ask("camplot.state.layers[0].isShown"), false);
    assert.deepEqual(await typed(browser, "no such words"), []);
    await stroke(browser, "Enter");
    await stroke(browser, "Escape");
    assert.deepEqual(browser.complaints(), []);
  });

  test("the list says why a command cannot be run, and is opened from a field too", async () => {
    const browser = await withPads();
    await press(browser, "#grid");
    assert.equal((await typed(browser, "undo"))[0], "undo");
    const row = "document.querySelector('#palette-list [aria-selected=true]')";
    assert.deepEqual(await browser.ask(`[${row}.getAttribute('aria-disabled'), ${row}.title]`), ["true", "Nothing is there to undo."]);
    await stroke(browser, "Enter");
    await idle(browser);
    assert.equal(await text(browser, "told"), "Nothing is there to undo.");
    assert.equal(await browser.ask("document.activeElement.id"), "grid");
  });
});

suite("a board that is opened", () => {
  const BOX = "camplot.view.fitted";

  test("fits with a margin of a twentieth, again when a panel opens or the window changes", async () => {
    const browser = await withBoard(), box = await browser.ask(BOX);
    assert.ok(await isFitted(browser, box), `${await gaps(browser, box)}`);
    const pitches = new Set([await browser.ask("camplot.view.pitch")]);
    for (const key of ["q", "w", "s", "q"]) {
      await stroke(browser, key);
      await settle(browser);
      assert.ok(await isFitted(browser, box), `${key}: ${await gaps(browser, box)}`);
      pitches.add(await browser.ask("camplot.view.pitch"));
    }
    assert.ok(pitches.size > 2, "the view changes with the panels");
    await browser.call("Emulation.setDeviceMetricsOverride", { width: 900, height: 640, deviceScaleFactor: 1, mobile: false });
    await browser.wait("innerWidth === 900");
    await settle(browser);
    assert.ok(await isFitted(browser, box), `900 by 640: ${await gaps(browser, box)}`);
    await press(browser, "[data-act=quarter]");
    await settle(browser);
    assert.ok(await isFitted(browser, box), `turned: ${await gaps(browser, box)}`);
  });

  test("stays where a person moved it", async () => {
    const browser = await withBoard(), pan = [...await onPage(browser, ...PAD), 0, 0];
    await browser.call("Input.dispatchMouseEvent", { type: "mouseWheel", x: pan[0], y: pan[1], deltaX: 0, deltaY: -120 });
    await browser.wait("camplot.view.fitted === null");
    await settle(browser);
    const pitch = await browser.ask("camplot.view.pitch");
    await stroke(browser, "q");
    await settle(browser);
    assert.equal(await browser.ask("camplot.view.pitch"), pitch);
    // All of it is shown again by the key, and stays so from then on.
    await stroke(browser, "0");
    await idle(browser);
    const box = await browser.ask(BOX);
    await stroke(browser, "w");
    await settle(browser);
    assert.ok(await isFitted(browser, box), `${await gaps(browser, box)}`);
  });
});

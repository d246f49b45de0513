// The page, driven in a headless browser as a person drives it.

import assert from "node:assert/strict";
import { CTRL, PAD, SHIFT, clickAt, gerber, give, last, lines, onPage, openPage, picked, run, settle, text, withBoard,
  withPads, written } from "./support.js";
import { suite, test } from "../../tools/tests/harness.js";

suite("looking", () => {
  test("a board is opened, recognised, fitted and drawn", async () => {
    const browser = await withBoard();
    assert.deepEqual(await browser.ask("camplot.state.layers.map(({ name }) => name)"),
      ["bottom-mask", "bottom", "top", "top-mask", "top-silk", "outline", "nonplated", "plated"]);
    assert.equal(await browser.ask("camplot.state.layers.filter(({ isShown }) => isShown)"
      + ".every(({ name }) => camplot.view.pictures.get(name).bitmap !== null)"), true);
    assert.match((await lines(browser))[0], /^load bottom-mask gerber files\/nightlight-B_Mask.gbr -> ok \d+$/);
    assert.deepEqual(browser.complaints(), []);
  });

  test("each pixel of a view is the station's", async () => {
    const browser = await withPads();
    // A disc of 1 mm at pixels of 10 µm: inside it is black, outside it is not, and its edge is where the law has it.
    await browser.ask("camplot.view.pitch = 10000; camplot.view.centre(0, 0)");
    await settle(browser);
    const alpha = (x, y) => browser.ask(`(() => {
      const { bitmap, left, top, pitch } = camplot.view.pictures.get("top");
      const canvas = new OffscreenCanvas(bitmap.width, bitmap.height);
      canvas.getContext("2d").drawImage(bitmap, 0, 0);
      return canvas.getContext("2d").getImageData(Math.floor((${x} - left) / pitch), Math.floor((top - ${y}) / pitch), 1, 1).data[3];
    })()`);
    assert.deepEqual([await alpha(0, 0), await alpha(485000, 5000), await alpha(515000, 5000), await alpha(1000000, 0)],
      [255, 255, 0, 0]);
  });

  test("pan, wheel and fit", async () => {
    const browser = await withPads();
    const before = await browser.ask("camplot.view.left"), pitch = await browser.ask("camplot.view.pitch");
    const [x, y] = await onPage(browser, 3000000, 0);
    await browser.drag([x, y + 100], [x + 50, y + 100], "right");
    assert.equal(await browser.ask("camplot.view.left"), before - 50 * pitch);
    await browser.mouse("mouseWheel", x, y, { deltaX: 0, deltaY: -300 });
    await browser.wait(`camplot.view.pitch < ${pitch}`);
    await browser.key("0");
    await browser.wait(`camplot.view.pitch === ${pitch}`);
  });

  test("a pinch", async () => {
    const browser = await withPads();
    await browser.call("Emulation.setTouchEmulationEnabled", { enabled: true, maxTouchPoints: 2 });
    const [x, y] = await onPage(browser, 3000000, 0), pitch = await browser.ask("camplot.view.pitch");
    const touch = (type, ...at) => browser.call("Input.dispatchTouchEvent", { type,
      touchPoints: at.map((left, id) => ({ x: left, y, id })) });
    await touch("touchStart", x - 50, x + 50);
    for (const apart of [60, 80, 100]) await touch("touchMove", x - apart, x + apart);
    await touch("touchEnd");
    await browser.wait(`camplot.view.pitch < ${pitch} * 0.6`);
    assert.equal(await browser.ask("camplot.state.picked.length"), 0);
  });

  test("layers are hidden, shown alone and coloured", async () => {
    const browser = await withBoard();
    const shown = () => browser.ask("camplot.state.layers.filter(({ isShown }) => isShown).map(({ name }) => name)");
    const before = await shown();
    await browser.ask("camplot.makeActive('top')");
    await browser.key("o");
    await settle(browser);
    assert.deepEqual(await shown(), ["top"]);
    await browser.key("o");
    assert.deepEqual(await shown(), before);
    await browser.key("a");
    assert.equal((await shown()).length, 8);
  });
});

suite("picking", () => {
  test("a click gives the topmost item, again the one under it", async () => {
    const browser = await openPage();
    await give(browser, [{ name: "a.gtl", bytes: gerber("X0Y0D03*", "X100000Y0D03*", "X5000000Y0D03*") }]);
    await settle(browser);
    await clickAt(browser, 50000, 0);
    await browser.wait("camplot.state.picked.length === 1");
    assert.deepEqual(await picked(browser), ["top 1 flash 10 100000 0 r0 dark"]);
    await clickAt(browser, 50000, 0);
    await browser.wait("camplot.state.picked[0]?.place === 0");
    await clickAt(browser, 50000, 0);
    await browser.wait("camplot.state.picked[0]?.place === 1");
    await clickAt(browser, 2500000, 0);
    await browser.wait("camplot.state.picked.length === 0");
    // Two clicks at once go down twice.
    await browser.ask("camplot.pickAt(50000, 0, 1000); camplot.pickAt(50000, 0, 1000)");
    assert.deepEqual(await picked(browser), ["top 0 flash 10 0 0 r0 dark"]);
  });

  test("a pad of a board", async () => {
    const browser = await withBoard();
    // The track that ends at the pad lies over it.
    await clickAt(browser, ...PAD);
    await browser.wait("camplot.state.picked.length === 1");
    assert.match((await picked(browser))[0], /^top 23 draw 18 117937500 -85000000 /);
    await clickAt(browser, ...PAD);
    await browser.wait("camplot.state.picked[0].place === 6");
    assert.deepEqual(await picked(browser), ["top 6 flash 13 117937500 -85000000 r0 dark"]);
    await browser.wait("document.getElementById('picked').textContent.includes('top 6')");
  });

  test("a box, and more by shift", async () => {
    const browser = await withPads();
    await browser.drag(await onPage(browser, -700000, -700000), await onPage(browser, 2700000, 700000));
    await browser.wait("camplot.state.picked.length === 2");
    await clickAt(browser, 6000000, 0, SHIFT);
    await browser.wait("camplot.state.picked.length === 3");
    assert.deepEqual((await picked(browser)).map((words) => words.split(" ")[1]), ["0", "1", "3"]);
    await browser.key("Escape");
    await browser.wait("camplot.state.picked.length === 0");
  });
});

suite("editing", () => {
  test("a drag moves, undo and redo by keys", async () => {
    const browser = await withPads();
    const before = await written(browser, "top");
    await clickAt(browser, 0, 0);
    await browser.wait("camplot.state.picked.length === 1");
    await browser.drag(await onPage(browser, 0, 0), await onPage(browser, 0, 1500000));
    await browser.wait("camplot.steps.done.length === 1");
    const [line] = last(await lines(browser), 1);
    assert.match(line, /^move top 0 -?\d+ \d+ -> ok$/);
    const [dx, dy] = line.split(" ").slice(3, 5).map(Number);
    assert.ok(Math.abs(dx) <= 20000 && Math.abs(dy - 1500000) <= 20000 && dx % 10000 === 0 && dy % 10000 === 0, line);
    const moved = await written(browser, "top");
    assert.notEqual(moved, before);
    await browser.key("z", CTRL);
    await browser.wait("camplot.steps.undone.length === 1");
    assert.equal(await written(browser, "top"), before);
    await browser.key("y", CTRL);
    await browser.wait("camplot.steps.done.length === 1");
    assert.equal(await written(browser, "top"), moved);
  });

  test("arrows move by the grid, and a group of several is one step", async () => {
    const browser = await withPads();
    await browser.key("a", CTRL);
    await browser.wait("camplot.state.picked.length === 4");
    await browser.key("ArrowRight");
    await browser.wait("camplot.steps.done.length === 1");
    await browser.key("ArrowUp", SHIFT);
    await browser.wait("camplot.steps.done.length === 2");
    assert.deepEqual(last(await lines(browser), 6), ["begin -> ok", ...[0, 1, 2, 3].map((k) => `move top ${k} 0 100000 -> ok`),
      "end -> ok"]);
    assert.match(await text(browser, "history"), /move 4 items/);
    await run(browser, "undo");
    await run(browser, "undo");
    assert.match(await written(browser, "top"), /X0Y0D03/);
  });

  test("delete takes places from the last, and is taken back", async () => {
    const browser = await withPads();
    const before = await written(browser, "top");
    await browser.drag(await onPage(browser, -700000, -700000), await onPage(browser, 4700000, 700000));
    await browser.wait("camplot.state.picked.length === 3");
    await browser.key("Delete");
    await browser.wait("camplot.steps.done.length === 1");
    assert.deepEqual(last(await lines(browser), 5).map((line) => line.split(" -> ")[0]),
      ["begin", "delete top 2", "delete top 1", "delete top 0", "end"]);
    assert.equal(await browser.ask("camplot.state.layers[0].items"), 1);
    await browser.key("z", CTRL);
    await browser.wait("camplot.state.layers[0].items === 4");
    assert.equal(await written(browser, "top"), before);
  });

  test("a group with a refused line is taken back whole", async () => {
    const browser = await withPads();
    const before = await written(browser, "top");
    await run(browser, "move top 0 5 5", "move top 99 5 5");
    assert.deepEqual(last(await lines(browser), 4), ["begin -> ok", "move top 0 5 5 -> ok", "move top 99 5 5 -> refused 61",
      "abort -> ok"]);
    assert.match(await text(browser, "told"), /refused 61: no item/);
    assert.equal(await written(browser, "top"), before);
  });

  test("polarity, aperture, place and copies", async () => {
    const browser = await withPads();
    await clickAt(browser, 2000000, 0);
    await browser.wait("camplot.state.picked.length === 1");
    await browser.key("x");
    await browser.wait("camplot.state.picked[0]?.words === 'flash 10 2000000 0 r0 clear'");
    await browser.key("]");
    await browser.wait("camplot.state.picked[0]?.place === 2");
    await browser.key("c", CTRL);
    await browser.key("v", CTRL);
    await browser.wait("camplot.state.layers[0].items === 5");
    assert.deepEqual(last(await lines(browser), 3), ["polarity top 1 clear -> ok", "reorder top 1 2 -> ok",
      "insert top 4 flash 10 2100000 100000 r0 clear -> ok"]);
    assert.deepEqual(await picked(browser), ["top 4 flash 10 2100000 100000 r0 clear"]);
  });

  test("items are drawn with the pointer", async () => {
    const browser = await withPads();
    await browser.ask("camplot.view.fit({ left: -2000000, low: -6000000, right: 8000000, high: 3000000 })");
    await settle(browser);
    const drawn = async (key, points, count) => {
      const before = await browser.ask("camplot.state.layers[0].items");
      await browser.key(key);
      for (const [x, y] of points) await clickAt(browser, x, y);
      if (count === null) await browser.key("Enter");
      await browser.wait(`camplot.state.layers[0].items === ${before + 1}`);
      return last(await lines(browser), 1)[0];
    };
    assert.match(await drawn("1", [[1000000, -2000000]]), /^insert top 4 flash 10 1\d{6}|^insert top 4 flash 10 9\d{5}/);
    assert.match(await drawn("2", [[0, -3000000], [4000000, -3000000]]), /^insert top 5 draw 10 .* r0 dark -> ok$/);
    assert.match(await drawn("3", [[2000000, -4000000], [1000000, -4000000], [1000000, -3500000]]),
      /^insert top 6 arc 10 .* ccw dark -> ok$/);
    assert.match(await drawn("4", [[0, -5000000], [3000000, -5000000], [3000000, -4500000]], null),
      /^insert top 7 region dark .* l .* l .* l .* -> ok$/);
    await browser.key("Escape");
    assert.equal(await browser.ask("camplot.state.tool"), "pick");
  });

  test("holes of a drill layer", async () => {
    const browser = await openPage();
    await give(browser, [{ name: "a.drl", bytes: Buffer.from("M48\nMETRIC\nT1C1.0\nT2C0.5\n%\nG05\nT1\nX0.0Y0.0\nX9.0Y9.0\nM30\n") }]);
    await settle(browser);
    await browser.key("5");
    await clickAt(browser, 4000000, 4000000);
    await browser.wait("camplot.state.layers[0].items === 3");
    await browser.key("6");
    for (const [x, y] of [[1000000, 6000000], [3000000, 6000000], [3000000, 8000000]]) await clickAt(browser, x, y);
    await browser.key("Enter");
    await browser.wait("camplot.state.layers[0].items === 4");
    assert.match(last(await lines(browser), 1)[0], /^insert holes 3 rout 1 (\d+ ){6}-> ok$/);
    assert.deepEqual(await run(browser, "diameter holes 2 600000"), ["ok"]);
    assert.match(await written(browser, "holes"), /T2C0.600000/);
  });
});

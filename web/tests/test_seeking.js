// A page that would show nothing of its board shows all of it.

import assert from "node:assert/strict";
import { join } from "node:path";
import { EXAMPLES, filesOf, gerber, settle } from "./support.js";
import { drop, onDisk, openFiles, press, typeLine, toBoard } from "./hands.js";
import { rest, seen } from "./seen.js";
import { suite, test } from "../../tools/tests/harness.js";
import { tabs } from "./tab.js";

const open = tabs();
const kicad = () => filesOf(join(EXAMPLES, "kicad")).map(({ name }) => join(EXAMPLES, "kicad", name));
const shown = async (tab) => (await seen(tab)).layers.filter(({ isShown }) => isShown).map(({ name }) => name).sort();
const pads = (count) => gerber(...Array.from({ length: count }, (_, at) => `X${at * 2000000}Y0D03*`));

async function opened(tab, count) {
  await tab.wait(`camplot.state.layers.length >= ${count}`, 60);
  await rest(tab);
}

// How many of the board's pixels are coloured, as layers are; the board itself and the rulers are grey.
const inked = async (tab) => {
  await settle(tab);
  return tab.ask(`(() => { const { canvas, context } = camplot.view, { data } = context.getImageData(0, 0, canvas.width, canvas.height);
    let found = 0;
    for (let at = 0; at < data.length; at += 4) {
      const parts = [data[at], data[at + 1], data[at + 2]];
      if (Math.max(...parts) - Math.min(...parts) > 40) found++;
    }
    return found; })()`);
};

// A link that is followed in the page, as from the address that a user types.
async function visit(tab, hash) {
  await tab.ask(`location.hash = ${JSON.stringify(hash)}`);
  await rest(tab);
}

// One by which the page is opened.
async function openedBy(tab, hash) {
  await tab.ask(`history.replaceState(null, "", ${JSON.stringify(hash)})`);
  await tab.reload();
  await rest(tab);
}

suite("a page that would show nothing", () => {
  test("of layers that are hidden at first shows those that are opened", async () => {
    const tab = await open();
    await drop(tab, onDisk({ "a.gts": pads(3), "b.gbs": pads(2) }));
    await opened(tab, 2);
    assert.deepEqual(await shown(tab), ["bottom-mask", "top-mask"]);
    assert.ok(await inked(tab) > 1000);
    // Next to one that is shown they stay hidden.
    await drop(tab, onDisk({ "c.gtp": pads(3) }));
    await opened(tab, 3);
    assert.deepEqual(await shown(tab), ["bottom-mask", "top-mask"]);
    assert.deepEqual(tab.complaints(), []);
  });

  test("since the layer that is shown is empty shows the others", async () => {
    const tab = await open();
    await drop(tab, onDisk({ "a.gtl": gerber(), "b.gbs": pads(2) }));
    await opened(tab, 2);
    assert.deepEqual(await shown(tab), ["bottom-mask", "top"]);
  });

  test("since all was hidden shows all when it is opened again", async () => {
    const tab = await open();
    await openFiles(tab, kicad());
    await opened(tab, 8);
    await press(tab, "[data-act=none]");
    await rest(tab);
    assert.deepEqual(await shown(tab), []);
    await tab.reload();
    await rest(tab);
    assert.equal((await shown(tab)).length, 8);
    // What a person hides but one stays so.
    await press(tab, "#layers .only", 0);
    await rest(tab);
    const alone = await shown(tab);
    await tab.reload();
    await rest(tab);
    assert.deepEqual(await shown(tab), alone);
  });

  test("since the view lay elsewhere goes to the board when it is opened again", async () => {
    const tab = await open();
    await drop(tab, onDisk({ "a.gtl": pads(3) }));
    await opened(tab, 1);
    await tab.drag([600, 100], [700, 780], "right");
    await tab.drag([600, 100], [700, 780], "right");
    // The view is kept with the unit.
    await tab.key("u");
    await rest(tab);
    assert.equal(await inked(tab), 0);
    await tab.reload();
    await rest(tab);
    assert.ok(await inked(tab) > 1000);
  });

  test("since its link leads far away goes to the board, and says so", async () => {
    const tab = await open();
    await drop(tab, onDisk({ "a.gtl": pads(3) }));
    await opened(tab, 1);
    for (const go of [visit, openedBy]) {
      await go(tab, "#500,500,10000");
      assert.equal((await seen(tab)).told, "The link leads to a place where nothing of the board is, so all of it is shown.");
      assert.ok(await inked(tab) > 1000);
    }
    // A place on the board is shown as it is.
    await visit(tab, "#2,0,5000");
    assert.deepEqual(await tab.ask("[camplot.view.pitch, Math.round(camplot.view.pointAt(camplot.view.canvas.width / 2, 0).x)]"), [5000, 2000000]);
    assert.deepEqual(tab.complaints(), []);
  });

  test("by a link that was opened before there was a board, once one is opened", async () => {
    const tab = await open();
    await visit(tab, "#-400,300,2000");
    await drop(tab, onDisk({ "a.gtl": pads(3) }));
    await opened(tab, 1);
    assert.match((await seen(tab)).told, /^The link leads to a place where nothing of the board is/);
    assert.ok(await inked(tab) > 1000);
  });

  test("by a person's own hand shows nothing", async () => {
    const tab = await open();
    await drop(tab, onDisk({ "a.gtl": pads(3) }));
    await opened(tab, 1);
    await tab.drag([600, 100], [700, 780], "right");
    await tab.drag([600, 100], [700, 780], "right");
    await typeLine(tab, "move top 0 10 0");
    await rest(tab);
    await toBoard(tab);
    assert.equal(await inked(tab), 0);
  });
});

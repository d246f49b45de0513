// A group of many edits is one change, and quick.

import assert from "node:assert/strict";
import { CTRL, gerber, settle } from "./support.js";
import { onDisk, openFiles, toBoard } from "./hands.js";
import { linesNow, rest, seen } from "./seen.js";
import { suite, test } from "../../tools/tests/harness.js";
import { tabs } from "./tab.js";

const open = tabs();
const COUNT = 800;
// From the key to the list of layers that shows it, the best of some turns: ten times what it takes on a machine that does
// nothing else, as the gate's does. One line after another took forty times as long.
const LONGEST_MS = 3000;

// Measures, in the page, from a key to the first time that the layer is shown with so many items.
const timed = (tab, items) => tab.ask(`(() => {
  globalThis.took = new Promise((done) => {
    let start = null;
    addEventListener("keydown", () => { start ??= performance.now(); }, { capture: true, once: true });
    const look = () => {
      const title = document.querySelector("#layers .name")?.title ?? "";
      if (start !== null && title.replaceAll(",", "").startsWith("top: ${items} item")) done(performance.now() - start);
      else setTimeout(look, 1);
    };
    look();
  });
})()`);

suite("a group", () => {
  test("of 800 deletions, and its undo", async () => {
    const tab = await open(), side = 40;
    await openFiles(tab, onDisk({ "a.gtl": gerber(...Array.from({ length: COUNT }, (_, at) =>
      `X${at % side * 2000000}Y${Math.floor(at / side) * 2000000}D03*`)) }));
    await tab.wait("camplot.state.layers.length === 1");
    await rest(tab);
    await settle(tab);
    await toBoard(tab);
    const took = [], undone = [];
    for (let turn = 0; turn < 3; turn++) {
      await tab.key("a", CTRL);
      await tab.wait(`camplot.state.picked.length === ${COUNT}`);
      await rest(tab);
      await timed(tab, 0);
      await tab.key("Delete");
      took.push(await tab.ask("took"));
      await rest(tab);
      await timed(tab, COUNT);
      await tab.key("z", CTRL);
      undone.push(await tab.ask("took"));
      await rest(tab);
    }
    console.log(`page: 800 deletions took ${took.map(Math.round).join(", ")} ms, their undo ${undone.map(Math.round).join(", ")} ms`);
    assert.match((await seen(tab)).history, /0 to undo, 1 to redo/);
    assert.equal((await linesNow(tab)).filter((line) => line.startsWith("delete top ")).length, 3 * COUNT);
    assert.ok(Math.min(...took) < LONGEST_MS, `${took}`);
    assert.ok(Math.min(...undone) < LONGEST_MS, `${undone}`);
  });
});

// Gestures in a headless browser, as quick and as many as a person makes them: what is dropped, picked, compared, undone.

import assert from "node:assert/strict";
import { mkdirSync, readFileSync, writeFileSync } from "node:fs";
import { join } from "node:path";
import { CTRL, SHIFT, clickAt, gerber, give, kicad, lines, openPage, picked, program, room, run, runProgram, savedFile, settle, text,
  withBoard, withPads, written } from "./support.js";
import { named, readAttributes } from "../attributes/read.js";
import { suite, test } from "../../tools/tests/harness.js";
import { execFileSync } from "node:child_process";

const linesAlone = async (browser) => (await lines(browser)).map((line) => line.split(" -> ")[0]);

const idle = (browser) => browser.ask("camplot.idle()");

// Chooses an answer of the question by its words.
async function choose(browser, words) {
  await browser.wait("document.getElementById('question').open");
  await browser.ask(`[...document.querySelectorAll("#question-choices button")]
    .find((one) => one.textContent === ${JSON.stringify(words)}).click()`);
}

suite("dropping", () => {
  test("files, folders and what is no layer, on a page from disk", async () => {
    const folder = room(), browser = await openPage();
    for (const { name, bytes } of kicad()) {
      mkdirSync(join(folder, "board", "inner"), { recursive: true });
      writeFileSync(join(folder, name.endsWith(".drl") ? "board/inner" : "board", name), bytes);
    }
    writeFileSync(join(folder, "extra.gbr"), gerber("X0Y0D03*"));
    writeFileSync(join(folder, "all.zip"), Buffer.from("PK\x03\x04rest"));
    await browser.drop(join(folder, "extra.gbr"), join(folder, "all.zip"));
    await browser.wait("camplot.state.layers.length === 1");
    await browser.wait("document.getElementById('told').textContent.includes('all.zip is not read: it has no end, so it is not whole.')");
    await browser.drop(join(folder, "board"));
    await browser.wait("camplot.state.layers.length === 9");
    await idle(browser);
    assert.equal(await text(browser, "told"), "8 layers opened.");
    assert.deepEqual(browser.complaints(), []);
  });

  test("two drops at once are two openings, one behind the other", async () => {
    const folder = room(), browser = await openPage();
    const paths = ["one", "two"].map((name) => join(folder, name, "a.gtl"));
    paths.forEach((path, at) => {
      mkdirSync(join(path, ".."), { recursive: true });
      writeFileSync(path, gerber(...Array.from({ length: at + 1 }, (_, x) => `X${x}Y0D03*`)));
    });
    for (const path of paths) await browser.drop(path);
    await browser.wait("camplot.state.layers.length === 2");
    await idle(browser);
    assert.deepEqual(await browser.ask("camplot.state.layers.map(({ name, items }) => `${name} ${items}`)"), ["top 1", "top-2 2"]);
    assert.deepEqual(await linesAlone(browser), ["load top gerber files/a.gtl", "load top-2 gerber files/2-a.gtl"]);
    assert.deepEqual(await browser.ask("[...camplot.session].map(([path, bytes]) => [path, bytes.length])"),
      paths.map((path, at) => [["files/a.gtl", "files/2-a.gtl"][at], readFileSync(path).length]));
  });
});

suite("picks", () => {
  test("a held Delete deletes what was picked and nothing else", async () => {
    const browser = await withPads();
    await clickAt(browser, 2000000, 0);
    await browser.key("Delete", 0, 5);
    await idle(browser);
    assert.deepEqual((await linesAlone(browser)).slice(1), ["delete top 1"]);
    assert.deepEqual(await picked(browser), []);
  });

  test("a place later, three times at once, is three places", async () => {
    const browser = await withPads();
    await clickAt(browser, 0, 0);
    await browser.key("]", 0, 2);
    await idle(browser);
    assert.deepEqual((await linesAlone(browser)).slice(1), ["reorder top 0 1", "reorder top 1 2", "reorder top 2 3"]);
    assert.deepEqual(await picked(browser), ["top 3 flash 10 0 0 r0 dark"]);
  });

  test("they follow their items through other lines, undo and redo", async () => {
    const browser = await withPads();
    const at = async (...given) => {
      if (given.length) await run(browser, ...given);
      return (await picked(browser)).map((words) => words.split(" ").slice(0, 4).join(" "));
    };
    await run(browser, "delete top 0");
    await clickAt(browser, 6000000, 0);
    await idle(browser);
    assert.deepEqual(await at(), ["top 2 flash 10"]);
    assert.deepEqual(await at("undo"), ["top 3 flash 10"]);
    assert.deepEqual(await at("redo"), ["top 2 flash 10"]);
    assert.deepEqual(await at("insert top 0 flash 10 1 1 r0 dark", "reorder top 0 2", "delete top 0"), ["top 2 flash 10"]);
    assert.deepEqual(await picked(browser), ["top 2 flash 10 6000000 0 r0 dark"]);
    assert.deepEqual(await at("undo"), ["top 2 flash 10"]);
    await run(browser, "begin", "end");
    assert.deepEqual(await at("delete top 2"), []);
    assert.deepEqual(await at("undo"), []);
  });

  test("a form is of the picks that it was shown for", async () => {
    const browser = await withPads();
    await clickAt(browser, 0, 0);
    await idle(browser);
    await browser.ask(`camplot.pickAt(2000000, 0, 1); document.querySelector("#picked form").requestSubmit();
      document.querySelectorAll("#picked input")[0].value = "1"; document.querySelector("#picked form").requestSubmit()`);
    await idle(browser);
    assert.deepEqual((await linesAlone(browser)).slice(1), []);
    assert.match(await text(browser, "told"), /What was picked is another by now/);
  });
});

suite("sameness", () => {
  test("of all layers, shown or not, in the view or not, by their texts", async () => {
    const browser = await withBoard();
    const compared = async (...edits) => {
      for (const line of edits) await run(browser, line);
      await browser.ask(`camplot.compare(${edits.length})`);
      const told = await text(browser, "compared-counts");
      await browser.key("Escape");
      return told;
    };
    assert.equal(await browser.ask("camplot.state.layers.find(({ name }) => name === 'top-mask').isShown"), false);
    assert.match(await compared("delete top-mask 0"), /0 pixels before alone0 pixels now alone.*differs in: top solder mask/);
    assert.match(await compared("move top-mask 0 0 0"), /8 layers: the same, byte for byte, in their texts/);
    // Less than a pixel.
    assert.ok(await browser.ask("camplot.view.pitch") > 10000);
    assert.match(await compared("move top 6 1 0", "move bottom 0 0 1"), /differs in: bottom copper, top copper/);
    // Outside of the view.
    await browser.ask("camplot.view.pan(100000, 0)");
    await settle(browser);
    assert.match(await compared("move top 6 1000000 0"), /0 pixels before alone0 pixels now alone.*differs in: top copper/);
  });

  test("what differs leads there", async () => {
    const browser = await withBoard();
    await run(browser, "delete top-mask 0");
    await browser.ask("camplot.compare(1)");
    const pitch = await browser.ask("camplot.view.pitch");
    await browser.ask("document.querySelector('#compared-counts button').click()");
    assert.ok(await browser.ask("camplot.view.pitch") < pitch / 4);
    assert.equal(await browser.ask("camplot.state.layers.find(({ name }) => name === 'top-mask').isShown"), true);
  });

  test("of two layers by their texts, and by pixels of a stated pitch", async () => {
    const browser = await openPage();
    await give(browser, [{ name: "a.gtl", bytes: gerber("X0Y0D03*", "X90000000Y0D03*") },
      { name: "b.gbl", bytes: gerber("X0Y0D03*", "X90000001Y0D03*") }, { name: "c.gto", bytes: gerber("X0Y0D03*", "X90000000Y0D03*") }]);
    await browser.ask("camplot.view.fit({ left: -1000000, low: -1000000, right: 1000000, high: 1000000 })");
    const compared = async (...names) => {
      await browser.ask(`camplot.compareChosen(${JSON.stringify(names)})`);
      return text(browser, "compared-counts");
    };
    assert.match(await compared("top", "top-silk"), /the same, byte for byte, in their texts/);
    assert.match(await compared("top", "bottom"), /at [\d,]+ nm a pixel.*their texts differ; the same, bit for bit, at [\d,]+ nm a pixel/);
  });
});

suite("steps and changes", () => {
  test("a load asks before it empties the steps, and one question about both old files comes behind it", async () => {
    const browser = await withPads();
    await run(browser, "move top 0 1 1");
    const bad = { name: "old.gbl", bytes: Buffer.from("%FSLAX36Y36*MOMM*%\n%ADD10C,1.0*%\nG54D10*\nX0Y0D03*\nM00*\n") };
    let opening = give(browser, [{ name: "b.gbl", bytes: gerber("X0Y0D03*") }]);
    await choose(browser, "Leave the files closed");
    assert.deepEqual((await opening).opened, []);
    assert.deepEqual(await browser.ask("[camplot.steps.done.length, camplot.state.layers.length]"), [1, 1]);
    opening = give(browser, [bad, { name: "c.gto", bytes: Buffer.from("%FSLAX36Y36*MOMM*%\nM00*\n") }]);
    await choose(browser, "Open them");
    await browser.wait("document.getElementById('question-title').textContent === 'Convert 2 files?'");
    assert.equal(await browser.ask("camplot.state.questions.length"), 1);
    assert.match(await text(browser, "question-body"), /old\.gbl.*c\.gto|c\.gto.*old\.gbl/s);
    await browser.wait("!document.querySelector('#question-choices button').disabled");
    await choose(browser, "Convert and open them");
    assert.deepEqual((await opening).opened, ["bottom", "top-silk"]);
    assert.equal(await browser.ask("camplot.steps.done.length"), 0);
  });

  test("unsaved changes count back when they are undone", async () => {
    const browser = await withPads();
    const unsaved = () => text(browser, "unsaved");
    await run(browser, "move top 0 1 1");
    await run(browser, "delete top 0");
    assert.equal(await unsaved(), "2 unsaved changes");
    await run(browser, "undo");
    assert.equal(await unsaved(), "1 unsaved change");
    await run(browser, "undo");
    assert.equal(await unsaved(), "all saved");
    await run(browser, "redo");
    await browser.key("s", CTRL);
    await savedFile(browser);
    await idle(browser);
    assert.equal(await unsaved(), "all saved");
    await run(browser, "undo");
    assert.equal(await unsaved(), "1 unsaved change");
    await run(browser, "delete top 1");
    assert.equal(await unsaved(), "2 unsaved changes");
  });

  test("two plots of a layer have names of their own in the script", async () => {
    program();
    const browser = await withPads(), folder = room(), plots = [];
    for (const line of ["move top 0 0 100000", "delete top 1"]) {
      await run(browser, line);
      await browser.ask("camplot.plot([camplot.state.layers[0]], 25400, 'pbm')");
      plots.push((await savedFile(browser)).bytes);
    }
    await browser.key("e", CTRL);
    writeFileSync(join(folder, "script.zip"), (await savedFile(browser)).bytes);
    execFileSync("python3", ["-m", "zipfile", "-e", join(folder, "script.zip"), folder]);
    assert.equal(runProgram(folder, "script").status, 0);
    assert.deepEqual(["top.pbm", "top-2.pbm"].map((name, at) => readFileSync(join(folder, "plots", name)).equals(plots[at])), [true, true]);
  });
});

suite("attributes", () => {
  test("are told before, saved with the layer, and left out where that is asked for", async () => {
    program();
    const browser = await withBoard(), folder = room();
    await idle(browser);
    assert.match(await text(browser, "dropped"), /top copper 32 net names \(\.N\), 13 pins \(\.P\)/);
    for (const line of ["delete top 3", "reorder top 0 9", "move top 4 1000 0"]) await run(browser, line);
    await run(browser, "undo");
    const canonical = await written(browser, "top");
    await browser.ask("camplot.makeActive('top')");
    await browser.ask("document.querySelector('[data-act=save-layer-bare]').click()");
    assert.equal(String((await savedFile(browser)).bytes), canonical);
    await idle(browser);
    assert.match(await text(browser, "told"), /without the attributes of items/);
    await browser.key("S", CTRL + SHIFT);
    const { name, bytes } = await savedFile(browser);
    assert.equal(name, "nightlight-F_Cu.gbr");
    await idle(browser);
    assert.match(await text(browser, "told"), /with the attributes of items/);
    // The program makes the layer's own text of it, and it says of each item what the file says.
    writeFileSync(join(folder, "whole.gbr"), bytes);
    writeFileSync(join(folder, "script"), "load top gerber whole.gbr\nwrite top again.gbr\n");
    assert.equal(runProgram(folder, "script").status, 0);
    assert.equal(readFileSync(join(folder, "again.gbr"), "latin1"), canonical);
    const netsOf = (file) => readAttributes(file).items.map(({ attributes }) => named(attributes, ".N")?.text ?? null);
    const given = netsOf(kicad().find((file) => file.name.includes("F_Cu")).bytes);
    given.splice(3, 1);
    given.splice(9, 0, ...given.splice(0, 1));
    assert.deepEqual(netsOf(bytes), given);
    assert.ok(given.filter((net) => net).length > 20);
  });
});

suite("groups", () => {
  const row = (count) => gerber(...Array.from({ length: count }, (_, k) => `X${k % 50 * 2000000}Y${Math.floor(k / 50) * 2000000}D03*`));

  test("800 deletions are one step, and quick", async () => {
    const browser = await openPage();
    await give(browser, [{ name: "a.gtl", bytes: row(1000) }]);
    await settle(browser);
    await browser.ask("camplot.pick(Array.from({ length: 800 }, (_, place) => ({ name: 'top', place })))");
    const ms = await browser.ask(`(async () => { const start = performance.now();
      document.querySelector("[data-act=delete]").click(); await camplot.idle(); return performance.now() - start; })()`);
    console.log(`page: 800 deletions took ${Math.round(ms)} ms`);
    assert.equal(await browser.ask("camplot.state.layers[0].items"), 200);
    assert.equal(await browser.ask("camplot.steps.done.length"), 1);
    assert.equal(await browser.ask("camplot.told.length"), 803);
    // On a machine that does other work too.
    assert.ok(ms < 3000, `${ms}`);
  });

  test("a group can be stopped, and nothing of it is done", async () => {
    const browser = await openPage();
    await give(browser, [{ name: "a.gtl", bytes: row(5000) }]);
    await settle(browser);
    const before = await written(browser, "top");
    await browser.ask(`(async () => { camplot.run(Array.from({ length: 60000 }, (_, k) => "move top " + k % 5000 + " 1 0"));
      camplot.machine.send({ kind: "escape" }); await camplot.idle(); })()`);
    assert.match(await text(browser, "told"), /Stopped: nothing of it was done/);
    assert.equal(await browser.ask("camplot.steps.done.length"), 0);
    assert.equal(await written(browser, "top"), before);
  });
});

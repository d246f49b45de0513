// A page that is opened again has all that it had, however it was left.

import assert from "node:assert/strict";
import { join } from "node:path";
import { EXAMPLES, filesOf, gerber } from "./support.js";
import { NO_DATABASE, WRITES, armWrite, canBeEnded, lateLocks } from "./faults.js";
import { answer, onDisk, openFiles, press, toBoard, typeLine } from "./hands.js";
import { linesNow, pickedNow, rest, restAgain, scriptNow, seen } from "./seen.js";
import { suite, test } from "../../tools/tests/harness.js";
import { tabs } from "./tab.js";

const open = tabs();
const KICAD = filesOf(join(EXAMPLES, "kicad")).map(({ name }) => join(EXAMPLES, "kicad", name));
const PADS = gerber("X0Y0D03*", "X5000000Y0D03*", "X10000000Y0D03*");

async function type(tab, ...lines) {
  for (const line of lines) await typeLine(tab, line);
  await rest(tab);
  await toBoard(tab);
}

async function withPads(options = {}) {
  const tab = await open(options);
  await openFiles(tab, onDisk({ "pads.gtl": PADS }));
  await tab.wait("camplot.state.layers.length === 1");
  await rest(tab);
  return tab;
}

const again = async (tab, options = {}) => {
  const next = await open({ context: tab.context, ...options });
  await restAgain(next);
  return next;
};

const layers = async (tab) => (await seen(tab)).layers.map(({ name, items, label, isShown }) => `${name} ${items} ${label} ${isShown}`);

suite("closed while it opens its board", () => {
  test("ended at one of its writes, it opens all of its board or nothing", async () => {
    const counts = new Set();
    for (const [what, write] of [["stop before", 1], ["stop", 4], ["stop when done", 9], ["stop before", 10], ["stop", 13], ["stop when done", 17]]) {
      const tab = await open({ first: [WRITES] });
      await canBeEnded(tab);
      await armWrite(tab, what, write);
      const from = tab.browser.events.length;
      await openFiles(tab, KICAD);
      const ended = await tab.heard("Runtime.bindingCalled", from, 3).catch(() => null);
      if (!ended) await rest(tab);
      await (ended ? tab.crash() : tab.close());
      const next = await again(tab);
      const count = (await seen(next)).layers.length;
      assert.ok(count === 0 || count === 8, `${count} of 8 layers, ${what} write ${write}`);
      assert.ok(ended || count === 8);
      counts.add(count);
      assert.deepEqual(next.complaints(), []);
      await next.close();
    }
    assert.ok(counts.has(8));
  });

  test("loaded anew by its user", async () => {
    const tab = await open();
    await openFiles(tab, KICAD);
    await tab.wait("camplot.state.layers.length >= 2");
    await tab.reload();
    await rest(tab);
    assert.equal((await seen(tab)).layers.length, 8);
  });

  test("closed by its user", async () => {
    const tab = await open();
    await openFiles(tab, KICAD);
    await tab.wait("camplot.state.layers.length >= 1");
    await tab.close();
    const next = await again(tab);
    assert.equal((await seen(next)).layers.length, 8);
  });

  test("loaded anew while it plays what it has kept", async () => {
    const tab = await open();
    await openFiles(tab, KICAD);
    await tab.wait("camplot.state.layers.length === 8");
    await rest(tab);
    await type(tab, "move top 0 1000 0", "delete top-mask 0");
    const before = [await layers(tab), await scriptNow(tab)];
    for (let turn = 0; turn < 3; turn++) {
      await tab.reload(false);
      await tab.askReload();
    }
    await tab.arrive();
    await rest(tab);
    assert.deepEqual([await layers(tab), await scriptNow(tab)], before);
    assert.doesNotMatch(Object.values(await seen(tab)).join(" "), /another window/i);
  });
});

suite("what was not opened yet", () => {
  test("refused files are listed still", async () => {
    const tab = await open();
    await openFiles(tab, onDisk({ "good.gtl": gerber("X0Y0D03*"), "bad.gbl": gerber("X0Y0D03*", "D99*") }));
    await tab.wait("camplot.state.layers.length === 1");
    await rest(tab);
    const { refused } = await seen(tab);
    assert.equal(refused.length, 1);
    await tab.reload();
    await rest(tab);
    assert.deepEqual((await seen(tab)).refused, refused);
  });

  for (const how of ["loaded anew", "crashed"]) {
    test(`a question that is open when the page is ${how}`, async () => {
      let tab = await open();
      await openFiles(tab, onDisk({ "good.gbl": gerber("X0Y0D03*"),
        "old.gtl": "%FSLAX36Y36*MOMM*%\n%ADD10C,1.0*%\nG54D10*\nX0Y0D03*\nM00*\n" }));
      await tab.wait("document.getElementById('question').open", 60);
      await rest(tab);
      if (how === "crashed") {
        await tab.crash();
        tab = await again(tab);
      } else {
        await tab.reload();
        await rest(tab);
      }
      const { question, refused, layers: shown } = await seen(tab);
      assert.deepEqual(shown.map(({ name }) => name), ["bottom"]);
      assert.ok(question || refused.some((words) => /old\.gtl/.test(words)), "the question is forgotten");
      if (!question) await press(tab, "#refused button");
      await answer(tab, /Convert/);
      await tab.wait("camplot.state.layers.length === 2", 60);
      await rest(tab);
      await tab.reload();
      await rest(tab);
      assert.equal((await seen(tab)).layers.length, 2);
      assert.equal((await seen(tab)).question, null);
    });
  }
});

suite("what is done while the page still reads what it has kept", () => {
  test("a line that is typed, and files that are dropped", async () => {
    const tab = await withPads();
    await type(tab, "move top 0 1000 0");
    const before = await scriptNow(tab);
    await tab.close();
    const next = await open({ context: tab.context, first: [lateLocks(1000)], isReady: false });
    await next.wait("document.getElementById('line') !== null && globalThis.camplot !== undefined");
    assert.equal((await seen(next)).layers.length, 0);
    await typeLine(next, "move top 1 0 2000");
    await openFiles(next, onDisk({ "more.gbl": PADS }));
    await next.arrive();
    await restAgain(next);
    if ((await seen(next)).question) await answer(next, /^Open/);
    await rest(next);
    const script = await scriptNow(next);
    assert.ok(script.startsWith(`${before}move top 1 0 2000\n`), script);
    assert.match(script.slice(before.length), /\nload bottom gerber files\/more\.gbl\n$/);
    await next.reload();
    await rest(next);
    assert.equal(await scriptNow(next), script);
  });
});

// Changes a text wherever it stands in what the browser has kept; how many places that were.
const spoil = (tab, text, by) => tab.ask(`(async () => {
  const done = (request) => new Promise((well, ill) => { request.onsuccess = () => well(request.result);
    request.onerror = () => ill(request.error); });
  let places = 0;
  const changed = (value) => {
    if (typeof value === "string" && value.includes(${JSON.stringify(text)})) {
      places++;
      return value.replace(${JSON.stringify(text)}, ${JSON.stringify(by)});
    }
    if (Array.isArray(value)) return value.map(changed);
    if (value?.constructor === Object) return Object.fromEntries(Object.entries(value).map(([key, part]) => [key, changed(part)]));
    return value;
  };
  for (const { name } of await indexedDB.databases()) {
    const base = await done(indexedDB.open(name));
    for (const store of base.objectStoreNames) {
      const records = base.transaction(store, "readwrite").objectStore(store);
      const keys = await done(records.getAllKeys()), values = await done(records.getAll());
      for (const [at, value] of values.entries()) {
        const before = places, made = changed(value);
        if (places === before) continue;
        const into = base.transaction(store, "readwrite").objectStore(store);
        await done(into.keyPath === null ? into.put(made, keys[at]) : into.put(made));
      }
    }
    base.close();
  }
  return places;
})()`);

suite("what the browser kept is spoiled", () => {
  for (const [what, text, by] of [["a line that is refused now", "move top 1 0 5000", "move top 99 0 5000"],
    ["a line that is none", "move top 1 0 5000", "m\u0000ve top 1"]]) {
    test(what, async () => {
      const tab = await open();
      await openFiles(tab, [...KICAD]);
      await tab.wait("camplot.state.layers.length === 8");
      await rest(tab);
      const shown = await layers(tab);
      await type(tab, "move top 0 0 7000", "move top 1 0 5000", "move top 2 0 6000");
      assert.ok(await spoil(tab, text, by) > 0);
      await tab.reload();
      await rest(tab);
      // All layers are there, and what is wrong is told with the line.
      assert.deepEqual(await layers(tab), shown);
      const words = await seen(tab);
      assert.match(`${words.told} ${words.kept} ${words.refused.join()} ${words.question?.body}`, /move top 99 0 5000|ve top 1|spoiled|cannot be played/);
      if (words.question) await tab.key("Escape");
      assert.ok((await linesNow(tab)).includes("move top 0 0 7000"));
      // And what is done from now on is kept.
      await type(tab, "move top 3 0 8000");
      await tab.reload();
      await rest(tab);
      assert.deepEqual(await layers(tab), shown);
      assert.ok((await linesNow(tab)).includes("move top 3 0 8000"));
    });
  }
});

suite("site data that is cleared while the page is open", () => {
  test("edits reach the station and the script alike", async () => {
    const tab = await withPads();
    await type(tab, "move top 0 0 7000");
    await tab.call("Storage.clearDataForOrigin", { origin: "file:///", storageTypes: "all" });
    await type(tab, "move top 1 0 5000", "move top 1 0 5000");
    assert.deepEqual((await linesNow(tab)).slice(1), ["move top 0 0 7000", "move top 1 0 5000", "move top 1 0 5000"]);
    await tab.click(...JSON.parse(await tab.ask(`(() => {
      const box = document.getElementById("marks").getBoundingClientRect(), at = camplot.view.placeOf(5000000, 10000);
      return JSON.stringify([box.left + at.x, box.top + at.y]);
    })()`)));
    await rest(tab);
    assert.deepEqual((await pickedNow(tab)).map(({ words }) => words), ["flash 10 5000000 10000 r0 dark"]);
    assert.deepEqual(tab.complaints(), []);
    const { kept } = await seen(tab), script = await scriptNow(tab);
    const next = (await tab.reload(), await rest(tab), await scriptNow(tab));
    // Either all of it was written again, or the page says that it keeps nothing.
    assert.ok(next === script || kept !== "", `it says nothing, and has ${next || "nothing"}`);
  });
});

suite("however it was left", () => {
  test("it says where the page keeps nothing, and runs", async () => {
    const tab = await withPads({ first: [NO_DATABASE] });
    await type(tab, "move top 0 0 7000");
    assert.deepEqual((await linesNow(tab)).length, 2);
    assert.match((await seen(tab)).kept, /\S/);
  });

  test("ended at each write of edits, it has a beginning of its lines", async () => {
    for (const [what, write] of [["stop before", 1], ["stop", 2], ["stop when done", 2], ["stop", 4], ["stop when done", 5]]) {
      const tab = await withPads({ first: [WRITES] });
      await canBeEnded(tab);
      await type(tab, "move top 0 0 1000");
      const kept = await linesNow(tab), lines = ["begin", "delete top 1", "move top 0 0 2000", "end", "undo", "redo"];
      await armWrite(tab, what, write);
      const from = tab.browser.events.length;
      await press(tab, "#line");
      for (const line of lines) {
        tab.type(line).catch(() => {});
        tab.key("Enter").catch(() => {});
      }
      assert.ok(await tab.heard("Runtime.bindingCalled", from, 5).catch(() => null), `write ${write} did not come`);
      await tab.crash();
      const next = await again(tab), found = await linesNow(next);
      assert.deepEqual(found, [...kept, ...lines].slice(0, found.length), what);
      assert.ok(found.length >= kept.length);
      assert.equal((await seen(next)).layers.length, 1);
      await next.close();
    }
  });
});

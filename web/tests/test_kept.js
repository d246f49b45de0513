// What is kept, in a headless browser: closing at any moment, a journal that refuses or is deleted, a station that stops.

import assert from "node:assert/strict";
import { writeFileSync, mkdirSync } from "node:fs";
import { join } from "node:path";
import { execFileSync } from "node:child_process";
import { CTRL, builtPage, clickAt, gerber, give, kicad, lines, openPage, program, room, run, runProgram, savedFile, text, withPads,
  written } from "./support.js";
import { Browser } from "./browser.js";
import { afterwards, suite, test } from "../../tools/tests/harness.js";

const idle = (browser) => browser.ask("camplot.idle()");
const notes = (browser) => text(browser, "kept");

// Opens a page over a profile, and the same again when it was killed.
async function twice(act) {
  const profile = room(), page = builtPage(), first = await Browser.open(page, { profile });
  afterwards(() => first.close());
  const kept = await act(first);
  await first.kill();
  const again = await Browser.open(page, { profile });
  afterwards(() => again.close());
  // A browser that was killed may hold its locks for a moment; then the page goes on with its work.
  await again.wait("document.body.dataset.ready === 'yes' && !camplot.boards.others.some(({ isHeld }) => isHeld)", 60);
  return { again, kept };
}

const OLD = "%FSLAX36Y36*MOMM*%\n%ADD10C,1.0*%\nG54D10*\nX0Y0D03*\nM00*\n";

// Changes the journal behind the page's back: `act` has the stores, and the name of the board.
const inJournal = (browser, act) => browser.ask(`new Promise((done, fail) => {
  const request = indexedDB.open("camplot boards"), { key } = camplot.boards.shown;
  request.onerror = () => fail(request.error);
  request.onsuccess = () => {
    const base = request.result, transaction = base.transaction(["lines", "files", "looks"], "readwrite");
    transaction.oncomplete = () => { base.close(); done(); };
    const lines = transaction.objectStore("lines"), files = transaction.objectStore("files");
    ${act};
  };
})`);

suite("opening again", () => {
  test("a page that was killed while it opened its board", async () => {
    for (const count of [1, 4]) {
      const { again } = await twice(async (browser) => {
        browser.ask("globalThis.opening = true");
        give(browser, kicad()).catch(() => {});
        await browser.wait(`camplot.told.length >= ${count}`);
      });
      await idle(again);
      assert.deepEqual(await again.ask("camplot.state.layers.map(({ name }) => name)"),
        ["bottom-mask", "bottom", "top", "top-mask", "top-silk", "outline", "nonplated", "plated"]);
      assert.equal(await again.ask("new Set([...camplot.session.keys()]).size"), 8);
      await again.close();
    }
  });

  test("refused files and open questions", async () => {
    const { again } = await twice(async (browser) => {
      give(browser, [{ name: "bad.gbl", bytes: gerber("D99*") }, { name: "old.gtl", bytes: Buffer.from(OLD) }]).catch(() => {});
      await browser.wait("document.getElementById('question').open");
      await idle(browser);
    });
    assert.match(await text(again, "refused"), /bad\.gbl refused 9/);
    await again.wait("document.getElementById('question-title').textContent === 'Convert old.gtl?'");
    await again.wait("!document.querySelector('#question-choices button').disabled");
    await again.ask("document.querySelector('#question-choices button').click()");
    await again.wait("camplot.state.layers.length === 1");
    await idle(again);
    assert.match(await text(again, "refused"), /bad\.gbl refused 9/);
    assert.doesNotMatch(await text(again, "refused"), /old\.gtl/);
  });

  test("pictures and refused lines", async () => {
    const { again, kept } = await twice(async (browser) => {
      await give(browser, [{ name: "pads.gtl", bytes: gerber("X0Y0D03*") }]);
      await run(browser, "move top 9 1 1");
      await browser.ask("camplot.plot([camplot.state.layers[0]], 10000, 'pbm')");
      await give(browser, [{ name: "plot.pbm", bytes: (await savedFile(browser)).bytes }]);
      await idle(browser);
      return browser.ask("camplot.scriptText()");
    });
    await idle(again);
    assert.equal(await again.ask("camplot.scriptText()"), kept);
    assert.match(kept, /^# refused 61: move top 9 1 1$/m);
    assert.deepEqual(await again.ask("camplot.state.opened.map(({ label }) => label)"), ["plot.pbm"]);
  });

  test("a line that is spoiled hides nothing, and what is done then is kept", async () => {
    const profile = room(), page = builtPage();
    const open = async () => {
      const browser = await Browser.open(page, { profile });
      afterwards(() => browser.close());
      await idle(browser);
      return browser;
    };
    const first = await open();
    await give(first, [{ name: "a.gtl", bytes: gerber("X0Y0D03*", "X2000000Y0D03*") }]);
    for (const line of ["move top 0 7 0", "move top 1 7 0", "undo", "undo", "redo"]) await run(first, line);
    await give(first, []);
    await inJournal(first, "lines.put({ entries: [{ line: 'mov top 0 7 0', reply: 'ok' }] }, [key, 2])");
    await first.kill();
    const second = await open();
    assert.match(await notes(second), /3 lines of what the browser kept are refused now and left out: mov top 0 7 0 \(refused 80\)/);
    assert.match(await notes(second), /; undo \(refused 70\); redo \(refused 71\)\. /);
    assert.equal(await second.ask("camplot.state.layers[0].items"), 2);
    // The undo of the line that is left out takes back no other step, and its redo makes none.
    assert.match(await written(second, "top"), /X0Y0D03[^]*X2000000Y0D03/);
    await run(second, "move top 1 1000000 0");
    const text_ = await written(second, "top");
    await idle(second);
    await second.kill();
    const third = await open();
    assert.equal(await notes(third), "");
    assert.equal(await written(third, "top"), text_);
    assert.match(await third.ask("camplot.scriptText()"), /^# refused 80: mov top 0 7 0$/m);
  });

  test("gestures while the journal is played wait for their turn", async () => {
    const profile = room(), page = builtPage(), first = await Browser.open(page, { profile });
    afterwards(() => first.close());
    await give(first, kicad());
    for (let k = 0; k < 30; k++) await run(first, `move top ${k} 1000 0`);
    const before = await written(first, "top");
    await run(first, "move top 0 500 0");
    await idle(first);
    await first.kill();
    const again = await Browser.open(page, { profile, isReady: false });
    afterwards(() => again.close());
    await again.wait("Boolean(globalThis.camplot?.state.work)");
    await again.key("z", CTRL);
    await again.wait("document.body.dataset.ready === 'yes'");
    await idle(again);
    assert.deepEqual((await lines(again)).slice(-1), ["undo -> ok"]);
    assert.equal(await written(again, "top"), before);
  });
});

suite("notes that stay", () => {
  const refuse = (browser, isRefused) => browser.ask(`(() => {
    globalThis.add ??= IDBObjectStore.prototype.add;
    IDBObjectStore.prototype.add = ${isRefused} ? function () { throw new DOMException("full", "QuotaExceededError"); } : add;
  })()`);

  test("a journal that is full, until it is not", async () => {
    const { again, kept } = await twice(async (browser) => {
      await give(browser, [{ name: "a.gtl", bytes: gerber("X0Y0D03*", "X2000000Y0D03*") }]);
      await refuse(browser, true);
      await run(browser, "move top 0 1 0");
      await run(browser, "move top 0 2 0");
      await browser.key("?");
      assert.match(await notes(browser), /The browser cannot keep more \(full\), so save your work/);
      await refuse(browser, false);
      await run(browser, "move top 0 3 0");
      assert.equal(await notes(browser), "");
      await refuse(browser, true);
      await run(browser, "move top 0 4 0");
      assert.match(await notes(browser), /cannot keep more/);
      await refuse(browser, false);
      await browser.ask("[...document.querySelectorAll('#kept button')].find((one) => one.textContent === 'keep again').click()");
      await browser.wait("document.getElementById('kept').textContent === ''");
      await idle(browser);
      return browser.ask("camplot.scriptText()");
    });
    assert.equal(await again.ask("camplot.scriptText()"), kept);
  });

  test("no database", async () => {
    const browser = await openPage({ isReady: false, page: builtPage() });
    await browser.call("Page.addScriptToEvaluateOnNewDocument",
      { source: "Object.defineProperty(window, 'indexedDB', { value: { open() { throw null; } } })" });
    await browser.visit(builtPage());
    await give(browser, [{ name: "a.gtl", bytes: gerber("X0Y0D03*") }]);
    await run(browser, "move top 0 1 0");
    assert.match(await notes(browser), /This browser keeps nothing for the page \(it does not say why\), so save your work/);
  });

  test("data that is deleted while the page is open", async () => {
    const browser = await withPads();
    await run(browser, "move top 0 1 0");
    await browser.ask("new Promise((done) => { indexedDB.deleteDatabase('camplot boards').onsuccess = () => done(); })");
    await run(browser, "move top 0 2 0");
    assert.match(await notes(browser), /What the browser kept of this page was deleted/);
    assert.match(await browser.ask("camplot.scriptText()"), /move top 0 2 0\n$/);
    // It does not come back by itself.
    assert.deepEqual(await browser.ask("indexedDB.databases().then((list) => list.map(({ name }) => name))"), []);
    await browser.ask("[...document.querySelectorAll('#kept button')].find((one) => one.textContent === 'keep again').click()");
    await browser.wait("document.getElementById('kept').textContent === ''");
    const script = await browser.ask("camplot.scriptText()");
    await browser.visit(builtPage());
    assert.equal(await browser.ask("camplot.scriptText()"), script);
  });

  test("records that are deleted behind the page's back", async () => {
    const browser = await withPads();
    await inJournal(browser, "lines.clear(); files.clear()");
    await run(browser, "move top 0 2 0");
    assert.match(await notes(browser), /What the browser kept of this page was deleted/);
  });
});

suite("a station that stops", () => {
  const again = async (browser) => {
    await browser.ask("[...document.querySelectorAll('#kept button')].find((one) => one.textContent === 'open again').click()");
    await browser.wait("document.getElementById('kept').textContent === ''");
    await idle(browser);
  };

  for (const [name, kill] of [["that is ended", "camplot.machine.link.worker.terminate()"],
    ["with a fault", "camplot.machine.link.send({ kind: 'nonsense', number: 0 })"]]) {
    test(`a worker ${name} is told, the script is saved, and it is opened again`, async () => {
      program();
      const browser = await withPads(), folder = room();
      await run(browser, "move top 0 0 500000");
      await run(browser, "delete top 3");
      const before = await written(browser, "top");
      await clickAt(browser, 2000000, 0);
      await idle(browser);
      await browser.ask(kill);
      await browser.wait("document.getElementById('kept').textContent.includes('The station stopped')");
      await browser.ask("[...document.querySelectorAll('#kept button')].find((one) => one.textContent === 'save the script').click()");
      writeFileSync(join(folder, "script.zip"), (await savedFile(browser)).bytes);
      mkdirSync(join(folder, "run"));
      execFileSync("python3", ["-m", "zipfile", "-e", join(folder, "script.zip"), join(folder, "run")]);
      assert.equal(runProgram(join(folder, "run"), "script").status, 0);
      await again(browser);
      assert.equal(await written(browser, "top"), before);
      await browser.key("Delete");
      await idle(browser);
      assert.match((await lines(browser)).at(-1), /^delete top 1 -> ok$/);
      await run(browser, "undo");
      assert.deepEqual(await run(browser, "undo"), ["ok"]);
    });
  }

  test("what fails in the page is told", async () => {
    const browser = await withPads();
    await browser.ask("Promise.reject(new Error('made to fail'))").catch(() => {});
    await browser.ask("setTimeout(() => Promise.reject(new Error('made to fail')))");
    await browser.wait("document.getElementById('kept').textContent.includes('made to fail')");
    await run(browser, "move top 0 1 0");
    assert.match(await notes(browser), /Something in the page failed \(made to fail\)/);
  });
});

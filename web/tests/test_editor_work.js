// The page in a headless browser: what is kept, saved, opened and typed.

import assert from "node:assert/strict";
import { execFileSync } from "node:child_process";
import { mkdirSync, readFileSync, writeFileSync } from "node:fs";
import { join } from "node:path";
import { CTRL, PAD, SHIFT, builtPage, clickAt, gerber, give, kicad, lines, openPage, program, room, run,
  runProgram, savedFile, settle, text, withBoard, withPads, written } from "./support.js";
import { Browser } from "./browser.js";
import { withContents } from "../building/contents.js";
import { afterwards, suite, test } from "../../tools/tests/harness.js";
import { saveBare } from "./hands.js";

suite("history", () => {
  test("the board is compared with an earlier step", async () => {
    const browser = await withPads();
    await run(browser, "move top 0 0 1000000");
    await run(browser, "move top 1 0 5000");
    const before = await written(browser, "top");
    await browser.ask("camplot.compare(2)");
    assert.equal(await browser.ask("camplot.state.comparison !== null"), true);
    const [both, then, now] = await browser.ask("camplot.state.comparison.sheets.map(({ count }) => count)");
    assert.ok(both > 0 && then > 0 && now > 0, `${both} ${then} ${now}`);
    assert.match(await text(browser, "compared"), /pixels before alone/);
    await browser.key("Escape");
    await browser.wait("camplot.state.comparison === null");
    assert.equal(await written(browser, "top"), before);
    await run(browser, "undo");
    await run(browser, "redo");
    assert.equal(await written(browser, "top"), before);
  });

  test("a crash, and the page is where it was", async () => {
    const profile = room(), page = builtPage();
    const first = await Browser.open(page, { profile });
    afterwards(() => first.close());
    await give(first, kicad());
    await run(first, "move top 6 1000000 0");
    await run(first, "delete top-silk 0");
    await run(first, "undo");
    await run(first, "move nowhere 0 0 0");
    const text_ = await written(first, "top");
    const layers = "camplot.state.layers.map(({ name, label, colour, isShown, items }) => [name, label, colour, isShown, items])";
    const shown = await first.ask(layers);
    await first.kill();
    const again = await Browser.open(page, { profile });
    afterwards(() => again.close());
    assert.deepEqual(await again.ask(layers), shown);
    assert.equal(await again.ask("camplot.steps.done.length + ' ' + camplot.steps.undone.length"), "1 1");
    assert.equal(await written(again, "top"), text_);
    assert.deepEqual(await run(again, "redo"), ["ok"]);
    assert.deepEqual(await run(again, "undo"), ["ok"]);
    assert.deepEqual(await run(again, "undo"), ["ok"]);
    assert.notEqual(await written(again, "top"), text_);
  });
});

suite("two pages", () => {
  test("the second says that the first has a board", async () => {
    const browser = await withPads();
    const { targetId } = await browser.call("Target.createTarget", { url: browser.url }, null);
    const { sessionId } = await browser.call("Target.attachToTarget", { targetId, flatten: true }, null);
    const told = async () => (await browser.call("Runtime.evaluate", { returnByValue: true,
      expression: "document.body?.dataset.ready ? document.getElementById('told').textContent : ''" }, sessionId)).result.value;
    let words = "";
    for (let turn = 0; turn < 200 && !words; turn++) {
      words = await told();
      await new Promise((done) => setTimeout(done, 50));
    }
    assert.match(words, /^1 board is open in another window: see 'boards'\./);
  });
});

suite("saving", () => {
  test("the script outside gives the same texts and pictures", async () => {
    program();
    const browser = await withBoard();
    await clickAt(browser, ...PAD);
    await browser.wait("camplot.state.picked.length === 1");
    await browser.key("ArrowRight", SHIFT);
    await browser.wait("camplot.steps.done.length === 1");
    await run(browser, "move top 99999 0 0");
    await run(browser, "move top 0 1 1", "move top 1 1 1");
    await browser.ask("camplot.plot(camplot.state.layers.filter(({ name }) => ['top', 'plated'].includes(name)), 25400, 'pbm')");
    const plots = await savedFile(browser);
    await saveBare(browser);
    const texts = await savedFile(browser);
    assert.equal(await browser.ask("camplot.state.unsaved"), 0);
    await browser.key("e", CTRL);
    const script = await savedFile(browser);
    const folder = room();
    for (const { name, bytes } of [plots, texts, script]) writeFileSync(join(folder, name), bytes);
    const unzip = (name, into) => {
      mkdirSync(join(folder, into), { recursive: true });
      execFileSync("python3", ["-m", "zipfile", "-e", join(folder, name), join(folder, into)]);
    };
    unzip("script.zip", "run");
    unzip("board.zip", "texts");
    unzip("plots.zip", "pictures");
    const { stdout, status } = runProgram(join(folder, "run"), "script");
    assert.equal(status, 0, stdout);
    assert.ok(!stdout.includes("refused"), stdout);
    const same = (one, other) => assert.ok(readFileSync(join(folder, one)).equals(readFileSync(join(folder, other))), one);
    for (const name of ["top", "plated"]) same(`run/plots/${name}.pbm`, `pictures/${name}.pbm`);
    for (const [name, file] of [["top.gbr", "F_Cu.gbr"], ["bottom.gbr", "B_Cu.gbr"], ["top-silk.gbr", "F_Silkscreen.gbr"],
      ["outline.gbr", "Edge_Cuts.gbr"], ["plated.drl", "PTH.drl"], ["nonplated.drl", "NPTH.drl"]]) {
      same(`run/written/${name}`, `texts/nightlight-${file}`);
    }
  });

  test("an unsaved change is told before the page is left", async () => {
    const browser = await withPads();
    const leaves = () => browser.ask("!window.dispatchEvent(new Event('beforeunload', { cancelable: true }))");
    assert.equal(await leaves(), false);
    await run(browser, "move top 0 1 1");
    assert.equal(await leaves(), true);
    assert.equal(await text(browser, "unsaved"), "1 unsaved change");
  });
});

suite("files", () => {
  test("a refused file is told with its place, the others load", async () => {
    const browser = await openPage();
    const { opened, refused } = await give(browser, [{ name: "good.gtl", bytes: gerber("X0Y0D03*") },
      { name: "bad.gbl", bytes: gerber("X0Y0D03*", "D99*") }]);
    assert.deepEqual([opened, refused], [["top"], ["refused 9 93"]]);
    const told = await text(browser, "refused");
    assert.match(told, /bad\.gbl refused 9, unknown aperture\. .* At line 9, column 1 \(byte 93\): D99\*/);
    assert.deepEqual(await browser.ask("camplot.state.layers.map(({ name }) => name)"), ["top"]);
  });

  test("old files are converted after a question that lists each change", async () => {
    const browser = await openPage();
    const convert = async (name, lines_, question) => {
      const opening = give(browser, [{ name, bytes: Buffer.from(lines_.join("\n")) }]);
      await browser.wait("document.getElementById('question').open");
      assert.match(await text(browser, "question-body"), question);
      await browser.ask("document.querySelector('#question-choices button').click()");
      return (await opening).opened;
    };
    assert.deepEqual(await convert("old.gtl", ["%FSLAX36Y36*MOMM*%", "%ADD10C,1.0*%", "G54D10*", "X0Y0D03*", "M00*", ""],
      /refused 3, .*line 1: .*line 5: /s), ["top"]);
    assert.deepEqual(await convert("old.drl", ["M48", "METRIC,TZ,000.000", "T01C0.800", "%", "T01", "X010000Y020000", "M30", ""],
      /refused 4[15], .*line 2/s), ["holes"]);
    assert.equal(await text(browser, "refused"), "");
    assert.match(await text(browser, "told"), /^1 layer opened\. 1 file converted\.$/);
    assert.match(await written(browser, "holes"), /X10\.000000Y20\.000000/);
    // The converted bytes are what the script's file holds.
    assert.match(await browser.ask("new TextDecoder().decode(camplot.session.get('files/old.gtl'))"), /^%FSLAX36Y36\*%/);
  });

  test("an old file that is left out changes nothing", async () => {
    const browser = await openPage();
    const opening = give(browser, [{ name: "old.gtl", bytes: Buffer.from("%FSLAX36Y36*MOMM*%\nM00*\n") }]);
    await browser.wait("document.getElementById('question').open");
    await browser.key("Escape");
    assert.deepEqual((await opening).opened, []);
    assert.equal(await browser.ask("camplot.state.layers.length"), 0);
  });

  test("names are text, and never HTML", async () => {
    const browser = await openPage();
    await give(browser, [{ name: "<img src=x onerror=alert(1)>.gtl", bytes: gerber("X0Y0D03*") },
      { name: "<b>bad</b>.gbl", bytes: Buffer.from("G04 <script>alert(1)</script>*\nX0Y0D03*\n") }]);
    assert.equal(await browser.ask("document.querySelectorAll('img, b script, #refused b b').length"), 0);
    assert.match(await text(browser, "refused"), /<b>bad<\/b>\.gbl/);
  });

  test("nothing is asked of a network, and no other code runs", async () => {
    const browser = await openPage();
    assert.equal(await browser.ask("fetch('https://example.org/').then(() => 'went', () => 'refused')"), "refused");
    await browser.ask("document.body.append(Object.assign(document.createElement('script'), { textContent: 'window.ran = 1' }))");
    await browser.ask("document.body.insertAdjacentHTML('beforeend', '<img src=\"data:image/gif;base64,R0lGODlhAQABAAAAACw=\" onerror=\"window.ran = 2\">')");
    assert.equal(await browser.ask("window.ran === undefined"), true);
  });
});

suite("large boards", () => {
  test("a million flashes are opened, panned, edited and taken back", async () => {
    const browser = await openPage();
    const opened = await browser.ask(`(async () => {
      const rows = ["%FSLAX46Y46*%\\n%MOMM*%\\n%ADD10C,0.05*%\\nD10*\\n"];
      for (let k = 0; k < 1e6; k++) rows.push(\`X\${k % 1000 * 100000}Y\${Math.floor(k / 1000) * 100000}D03*\\n\`);
      rows.push("M02*\\n");
      const bytes = new TextEncoder().encode(rows.join(""));
      return (await camplot.openFiles([{ name: "a.gtl", bytes }])).opened;
    })()`);
    assert.deepEqual(opened, ["top"]);
    await settle(browser);
    assert.equal((await lines(browser))[0], "load top gerber files/a.gtl -> ok 1000000");
    await browser.ask("camplot.view.pan(200, 100)");
    await settle(browser);
    assert.deepEqual(await run(browser, "move top 500000 1000000 0"), ["ok"]);
    await settle(browser);
    assert.deepEqual(await run(browser, "undo"), ["ok"]);
    await settle(browser);
    assert.deepEqual(await browser.ask("[camplot.steps.done.length, camplot.steps.undone.length]"), [0, 1]);
    assert.deepEqual(browser.complaints(), []);
  });
});

suite("a page with files inside", () => {
  test("opens them, and keeps its work apart", async () => {
    const path = join(room(), "board.html");
    writeFileSync(path, withContents(readFileSync(builtPage(), "utf8"), { title: "a <b>board</b>", files: kicad() }));
    const browser = await openPage({ page: path });
    await settle(browser);
    assert.equal(await browser.ask("camplot.state.layers.length"), 8);
    assert.equal(await text(browser, "title"), "a <b>board</b>");
    assert.deepEqual(browser.complaints(), []);
  });
});

suite("keys and lines", () => {
  test("a page of keys", async () => {
    const browser = await openPage();
    await browser.key("?");
    await browser.wait("document.getElementById('keys').open");
    assert.match(await text(browser, "keys-body"), /Ctrl Z.*Undo/);
    await browser.ask("document.getElementById('keys').close()");
  });

  test("each button has a name for screen readers", async () => {
    const browser = await withBoard();
    assert.deepEqual(await browser.ask(`[...document.querySelectorAll("button, input, select, canvas")]
      .filter((one) => !one.hidden && !(one.getAttribute("aria-label") || one.textContent.trim() || one.labels?.length
        || one.id === "board")).map((one) => one.outerHTML)`), []);
  });

  test("a typed line, and one that is refused", async () => {
    const browser = await withPads();
    await browser.key(":");
    await browser.type("move top 0 5 5");
    await browser.key("Enter");
    await browser.wait("camplot.steps.done.length === 1");
    await browser.type("move top 0 5");
    await browser.key("Enter");
    await browser.wait("camplot.told[camplot.told.length - 1].reply === 'refused 80'");
    assert.match(await text(browser, "told"), /refused 80: bad line/);
    assert.match(await text(browser, "script"), /move top 0 5 5ok/);
  });

  test("the light look", async () => {
    const browser = await openPage();
    const look = () => browser.ask("document.documentElement.dataset.look");
    const before = await look();
    await browser.key("l");
    assert.notEqual(await look(), before);
  });
});

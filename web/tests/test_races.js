// Hands that are quicker than the page, workers that end, files that are none, and what a person's system asks for.

import assert from "node:assert/strict";
import { closeSync, ftruncateSync, openSync } from "node:fs";
import { join } from "node:path";
import { WORKERS } from "./faults.js";
import { drop, hold, onDisk, pause, toBoard } from "./hands.js";
import { gerber, onPage, room } from "./support.js";
import { linesNow, rest, scriptNow, seen } from "./seen.js";
import { suite, test } from "../../tools/tests/harness.js";
import { tabs } from "./tab.js";

const open = tabs();
const pads = (count) => gerber(...Array.from({ length: count }, (_, at) => `X${at * 2000000}Y0D03*`));
const HOLES = "M48\nMETRIC\nT1C0.4\n%\nT1\nX10.0Y5.0\nX12.0Y5.0\nM30\n";
const OLD = "%FSLAX36Y36*MOMM*%\n%ADD10C,1.0*%\nG54D10*\nX0Y0D03*\nM00*\n";

async function withFiles(files, options = {}) {
  const tab = await open(options);
  await drop(tab, onDisk(files));
  await tab.wait(`camplot.state.layers.length === ${Object.keys(files).length}`, 60);
  await rest(tab);
  await toBoard(tab);
  return tab;
}

const clickAt = async (tab, x, y) => {
  await tab.click(...await onPage(tab, x, y));
  await rest(tab);
};

suite("a click on a hole", () => {
  test("does not change what is drawn into, and a tool that can't work there is greyed and says why", async () => {
    const tab = await withFiles({ "a.gtl": pads(3), "a.drl": HOLES });
    assert.equal(await tab.ask("camplot.state.active"), "top");
    await clickAt(tab, 10000000, 5000000);
    assert.deepEqual(await tab.ask("[camplot.state.picked[0]?.name, camplot.state.active]"), ["holes", "top"]);
    await tab.key("1");
    await clickAt(tab, 4000000, 3000000);
    assert.match((await scriptNow(tab)).split("\n").at(-2), /^insert top 3 flash 10 4000000 3000000 r0 dark$/);
    await tab.key("Escape");
    await tab.ask("camplot.makeActive('holes')");
    await rest(tab);
    const why = "A flash goes into a Gerber layer, and holes is a drill layer: choose another in the list.";
    assert.deepEqual(await tab.ask("(({ title, ariaDisabled }) => [title, ariaDisabled])(document.querySelector('[data-act=flash]'))"), [why, "true"]);
    assert.equal(await tab.ask("document.querySelector('[data-act=hit]').ariaDisabled"), "false");
    await tab.key("1");
    assert.deepEqual([(await seen(tab)).told, await tab.ask("camplot.state.tool")], [why, "pick"]);
  });
});

suite("a held arrow", () => {
  test("is one move and one step, which is shown as it goes", async () => {
    const tab = await withFiles({ "a.gtl": pads(3) });
    await clickAt(tab, 0, 0);
    for (const isRepeat of [false, true, true, true, true]) {
      await tab.call("Input.dispatchKeyEvent", { type: "keyDown", key: "ArrowRight", autoRepeat: isRepeat });
    }
    assert.deepEqual(await tab.ask("camplot.marks.shift"), { x: 50000, y: 0 });
    await tab.call("Input.dispatchKeyEvent", { type: "keyUp", key: "ArrowRight" });
    await rest(tab);
    assert.deepEqual([(await linesNow(tab)).slice(1), (await seen(tab)).history.slice(0, 9)], [["move top 0 50000 0"], "1 to undo"]);
    await hold(tab, "ArrowUp", 40);
    await rest(tab);
    assert.deepEqual((await linesNow(tab)).slice(2), ["move top 0 0 400000"]);
  });
});

suite("a worker that ends", () => {
  test("while it finds nets is told, and another one begins", async () => {
    const tab = await withFiles({ "a.gtl": pads(3) });
    await tab.ask("document.getElementById('nets-on').click()");
    await tab.wait("camplot.state.nets.about?.count === 3", 60);
    await tab.ask("camplot.nets.follow.link.worker.terminate()");
    await tab.wait("/What finds the nets stopped/.test(document.getElementById('told').textContent)", 30);
    await tab.wait("camplot.state.nets.about?.count === 3", 60);
    await rest(tab);
  });

  test("while it tries a conversion is told, and the page is not busy for ever", async () => {
    const tab = await open({ first: [WORKERS, `{ const send = Worker.prototype.postMessage;
      Worker.prototype.postMessage = function (message, ...rest) {
        if (message?.kind === "first") { globalThis.trying = this; return undefined; }
        return send.call(this, message, ...rest);
      }; }`] });
    await drop(tab, onDisk({ "old.gtl": OLD }));
    await tab.wait("globalThis.trying", 60);
    // (it lives by now, and the page waits for its lock)
    await tab.ask(`(async () => {
      for (;;) {
        const { held, pending } = await navigator.locks.query(), workers = held.filter(({ name }) => name.startsWith("camplot worker"));
        if (workers.length > 1 && workers.every(({ name }) => pending.some((other) => other.name === name))) return;
        await new Promise((done) => { setTimeout(done, 20); });
      }
    })()`);
    await tab.ask("trying.terminate()");
    await tab.wait("/the conversion ended/.test(document.getElementById('refused').textContent)", 30);
    await rest(tab, 30);
  });
});

suite("files that are none", () => {
  test("are called by what they are", async () => {
    const tab = await open(), head = (text) => Buffer.from(text, "latin1");
    await drop(tab, onDisk({ "a.rar": head("Rar!\x1a\x07\x00"), "b.7z": head("7z\xbc\xaf\x27\x1c"), "c.gbrjob": "{}", "d.pdf": "%PDF-1.4\n", "e.png": head("\x89PNG\r\n") }));
    await tab.wait("document.getElementById('told').textContent !== ''", 60);
    const { told } = await seen(tab);
    for (const words of ["a.rar is a RAR archive", "b.7z is a 7z archive", "c.gbrjob is a Gerber job file", "d.pdf is a PDF document", "e.png is a PNG picture"]) {
      assert.ok(told.includes(words), `${words}: ${told}`);
    }
    assert.doesNotMatch(told, /0 layers opened/);
  });

  test("of 500 MB are refused by their first bytes", async () => {
    const tab = await open(), path = join(room(), "large.bin"), file = openSync(path, "w"), start = Date.now();
    ftruncateSync(file, 5e8);
    closeSync(file);
    await drop(tab, [path]);
    await tab.wait("/large.bin begins as no layer does, and has 500 MB/.test(document.getElementById('told').textContent)", 30);
    assert.ok(Date.now() - start < 5000, `${Date.now() - start} ms`);
  });

  test("past the most layers are not tried, since no conversion changes that", async () => {
    const tab = await open(), files = Object.fromEntries(Array.from({ length: 40 }, (_, at) => [`l${at}.gtl`, pads(1)]));
    await drop(tab, onDisk(files));
    await tab.wait("camplot.state.refused.length === 8", 60);
    await rest(tab);
    assert.deepEqual(await tab.ask("camplot.state.refused.map(({ reply, offer }) => [reply, offer])"), Array.from({ length: 8 }, () => ["refused 85", null]));
  });
});

suite("what a page says", () => {
  test("of a board that is opened again is what is there", async () => {
    const tab = await withFiles({ "a.gtl": pads(3), "b.gbl": pads(2) });
    await tab.reload();
    await rest(tab);
    assert.equal((await seen(tab)).told, "Opened where you were: 2 layers.");
  });

  test("is called so that a person who speaks can press it", async () => {
    const tab = await withFiles({ "a.gtl": pads(3) });
    const wrong = await tab.ask(`[...document.querySelectorAll("button")].filter((one) => one.getAttribute("aria-label") && one.textContent.trim()
      && !one.getAttribute("aria-label").toLowerCase().includes(one.textContent.trim().toLowerCase().replace(/ \\.\\.$/, ""))).map((one) =>
      one.textContent.trim() + " is called " + one.getAttribute("aria-label"))`);
    assert.deepEqual(wrong, []);
  });
});

suite("what a person's system asks for", () => {
  const scheme = (tab, value) => tab.call("Emulation.setEmulatedMedia", { features: [{ name: "prefers-color-scheme", value }] });
  const look = (tab) => tab.ask("document.documentElement.dataset.look");

  test("a look that changes while the page is open, but not one that was chosen", async () => {
    const tab = await withFiles({ "a.gtl": pads(3) });
    for (const value of ["light", "dark", "light"]) {
      await scheme(tab, value);
      await tab.wait(`document.documentElement.dataset.look === "${value}"`, 20);
    }
    await rest(tab);
    await tab.reload();
    await rest(tab);
    await scheme(tab, "dark");
    await tab.wait("document.documentElement.dataset.look === 'dark'", 20);
    await toBoard(tab);
    await tab.key("l");
    await rest(tab);
    assert.equal(await look(tab), "light");
    await scheme(tab, "light");
    await scheme(tab, "dark");
    await pause(100);
    assert.equal(await look(tab), "light");
    await tab.reload();
    await rest(tab);
    assert.equal(await look(tab), "light");
  });

  test("words on a pressed button are seen in the dark look", async () => {
    const tab = await open();
    await scheme(tab, "dark");
    const colours = await tab.ask(`(() => { const { backgroundColor, color } = getComputedStyle(document.querySelector("[data-act=pick]")); return [backgroundColor, color]; })()`);
    const light = (text) => text.match(/\d+/g).slice(0, 3).map((part) => Number(part) / 255)
      .map((part) => part <= 0.03928 ? part / 12.92 : ((part + 0.055) / 1.055) ** 2.4).reduce((sum, part, at) => sum + part * [0.2126, 0.7152, 0.0722][at], 0);
    const [one, other] = colours.map(light).sort((a, b) => b - a);
    assert.ok((one + 0.05) / (other + 0.05) >= 4.5, `${colours}: ${(one + 0.05) / (other + 0.05)}`);
  });

  test("the page of keys begins at its top", async () => {
    const tab = await open();
    await tab.call("Emulation.setDeviceMetricsOverride", { width: 900, height: 500, deviceScaleFactor: 1, mobile: false });
    await toBoard(tab);
    await tab.key("?");
    await tab.wait("document.getElementById('keys').open", 20);
    assert.equal(await tab.ask("document.getElementById('keys').scrollTop"), 0);
  });

  test("at 200 % the board has most of the window", async () => {
    const tab = await withFiles({ "a.gtl": pads(3) });
    await tab.call("Emulation.setDeviceMetricsOverride", { width: 640, height: 400, deviceScaleFactor: 2, mobile: false });
    await pause(300);
    const part = await tab.ask("(() => { const { width, height } = document.getElementById('stage').getBoundingClientRect(); return width * height / innerWidth / innerHeight; })()");
    assert.ok(part >= 0.6, `${Math.round(100 * part)} %`);
  });
});


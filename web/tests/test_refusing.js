// Refused files that take long to convert: the page is not held up meanwhile, says that it works on them, and can be left.

import assert from "node:assert/strict";
import { gerber, give, openPage, settle, text } from "./support.js";
import { stroke } from "./keyboard.js";
import { suite, test } from "../../tools/tests/harness.js";

const ROWS = 400000;

// An old file, which is refused at its first line, and converted in some seconds.
function oldFile() {
  const rows = ["%FSLAX36Y36*MOMM*%\n%ADD10C,1.0*%\nG54D10*\n"];
  for (let k = 0; k < ROWS; k++) rows.push(`X${k % 1000 * 100000}Y${Math.floor(k / 1000) * 100000}D03*\n`);
  rows.push("M00*\n");
  return Buffer.from(rows.join(""));
}

// Looks how long the page's thread is held up at most, from now on.
const WATCH = `(() => { globalThis.longest = 0; let last = performance.now();
  const look = () => { const now = performance.now(); longest = Math.max(longest, now - last); last = now; setTimeout(look, 5); }; look(); })()`;

// Gives a large file in parts.
async function giveLarge(browser, name, bytes) {
  await browser.ask("globalThis.parts = []");
  for (let at = 0; at < bytes.length; at += 3e6) {
    await browser.ask(`parts.push(Uint8Array.from(atob("${bytes.subarray(at, at + 3e6).toString("base64")}"), (x) => x.charCodeAt(0)))`);
  }
  await browser.ask(`new Blob(parts).arrayBuffer().then((buffer) => { void camplot.openFiles([{ name: "${name}", bytes: new Uint8Array(buffer) }]); })`);
}

suite("a large refused file", () => {
  test("is converted beside the page, which goes on, and leaves it", async () => {
    const browser = await openPage();
    await give(browser, [{ name: "pads.gtl", bytes: gerber("X0Y0D03*", "X2000000Y0D03*") }]);
    await settle(browser);
    const bytes = oldFile();
    await giveLarge(browser, "old.gbl", bytes);
    const start = Date.now();
    await browser.ask(WATCH);
    await browser.wait("document.querySelector('#refused .working') !== null");
    assert.match(await text(browser, "refused"), /It is tried whether it can be converted/);
    // Meanwhile the board is worked on.
    await browser.ask("camplot.run(['move top 1 1000000 0'])");
    assert.equal(await browser.ask("camplot.state.refused[0].isTried"), false);
    await browser.wait("document.getElementById('question').open");
    const tried = Date.now() - start;
    await browser.wait("document.querySelector('#question-choices button').disabled === false");
    assert.match(await text(browser, "question-body"), /These changes are made, and no others/);
    console.log(`page: a file of ${bytes.length} bytes was tried in ${tried} ms, the page held up ${Math.round(await browser.ask("longest"))} ms`);
    // Another choice converts it again.
    await browser.ask("globalThis.longest = 0; const one = document.querySelector('#choices input'); one.checked = true; one.dispatchEvent(new Event('input', { bubbles: true })); void 0");
    await browser.wait("document.querySelector('#question-body .working') !== null", 60);
    assert.equal(await browser.ask("document.querySelector('#question-choices button').disabled"), true);
    const left = Date.now();
    await stroke(browser, "Escape");
    await browser.wait("!document.getElementById('question').open && camplot.state.questions.length === 0", 60);
    await browser.ask("camplot.idle()");
    assert.ok(Date.now() - left < Math.max(700, tried / 2), `${Date.now() - left} of ${tried}`);
    assert.ok(await browser.ask("longest") < Math.max(500, tried / 2), `${await browser.ask("longest")} of ${tried}`);
    assert.deepEqual(await browser.ask("camplot.state.layers.map(({ name }) => name)"), ["top"]);
    // It is offered again, and opened.
    await browser.ask("document.querySelector('#refused button').click()");
    await browser.wait("document.getElementById('question').open && !document.querySelector('#question-choices button').disabled");
    await browser.ask("document.querySelector('#question-choices button').click()");
    // (what can be undone is lost by a load, which is asked)
    await browser.wait("document.getElementById('question-title').textContent.startsWith('Open files')", 60);
    await browser.ask("document.querySelector('#question-choices button:nth-child(2)').click()");
    await browser.wait(`camplot.state.layers.find(({ name }) => name === "bottom")?.items === ${ROWS}`, 60);
    assert.deepEqual(browser.complaints(), []);
  });
});

// Points snap to items while measuring, drawing and moving; lengths from an origin; the gap between two items.

import assert from "node:assert/strict";
import { clickAt, gerber, give, lines, onPage, openPage, picked, run, settle, text } from "./support.js";
import { clickNear, dragNear, hover, sign } from "./snapping.js";
import { distanceWords } from "../page/marks.js";
import { edgeOf, gapBetween, pointsOf, shapeOf } from "../board/shapes.js";
import { idle, lastLine } from "./looking.js";
import { arcThrough } from "../board/sides.js";
import { chances } from "../../tools/tests/pictures.js";
import { press } from "./hands.js";
import { suite, test } from "../../tools/tests/harness.js";

const ENTRIES = [{ number: 10, shape: "circle", width: 1000, height: 1000 }, { number: 11, shape: "rectangle", width: 2000, height: 1000 },
  { number: 12, shape: "obround", width: 3000, height: 1000 }, { number: 13, shape: null, width: 0, height: 0 },
  { number: 14, shape: "circle", width: 1000, height: 1000, hasHole: true }];

const gap = (one, other) => gapBetween(...[one, other].map((words) => shapeOf(words, ENTRIES))).distance;

// A pad, a draw, a rectangle and a region, apart from one another.
async function withItems() {
  const browser = await openPage();
  await give(browser, [{ name: "a.gtl", bytes: gerber("X0Y0D03*", "X3000000Y1000000D02*", "X5000000Y1000000D01*", "D11*", "X9000000Y0D03*",
    "G36*", "X3000000Y-3000000D02*", "X5000000Y-3000000D01*", "X4000000Y-2000000D01*", "X3000000Y-3000000D01*", "G37*") }]);
  await browser.ask("camplot.view.fit({ left: -1000000, low: -4000000, right: 11000000, high: 3000000 })");
  await settle(browser);
  return browser;
}

suite("points of items", () => {
  test("are centres, ends and corners, as they are turned; edges are where the shape ends", () => {
    const kinds = (words) => pointsOf(words, ENTRIES).map(({ kind, at }) => `${kind} ${at.join(" ")}`);
    assert.deepEqual(kinds("flash 10 5 6 r0 dark"), ["centre 5 6"]);
    assert.deepEqual(kinds("flash 11 0 0 m90 dark"), ["centre 0 0", "corner -500 -1000", "corner 500 -1000", "corner 500 1000", "corner -500 1000"]);
    assert.deepEqual(kinds("draw 10 1 2 3 4 r0 dark"), ["end 1 2", "end 3 4"]);
    assert.deepEqual(kinds("arc 10 1 0 0 1 0 0 ccw clear"), ["end 1 0", "end 0 1", "centre 0 0"]);
    assert.deepEqual(kinds("region dark 0 0 l 9 0 ccw 0 9 0 0 l 0 0"), ["corner 0 0", "corner 9 0", "corner 0 9", "corner 0 0", "centre 0 0"]);
    assert.deepEqual([kinds("hit 1 3 4"), kinds("rout 1 0 0 5 5 9 9"), kinds("repeat 2 2 5 5 1")],
      [["centre 3 4"], ["end 0 0", "end 5 5", "end 9 9"], []]);
    const edge = (words, point) => edgeOf(shapeOf(words, ENTRIES), point)?.map(Math.round);
    assert.deepEqual(edge("flash 10 0 0 r0 dark", [100, 0]), [500, 0]);
    assert.deepEqual(edge("draw 10 0 0 9000 0 r0 dark", [3000, -700]), [3000, -500]);
    assert.deepEqual(edge("flash 11 0 0 r90 dark", [700, 100]), [500, 100]);
    assert.deepEqual(edge("flash 12 0 0 r0 dark", [0, 800]), [0, 500]);
  });

  test("gaps are those of the items' numbers", () => {
    assert.equal(gap("flash 10 0 0 r0 dark", "flash 10 5000 0 r0 dark"), 4000);
    assert.equal(gap("flash 10 0 0 r0 dark", "draw 10 -9000 3000 9000 3000 r0 dark"), 2000);
    assert.equal(gap("flash 11 0 0 r0 dark", "flash 11 4000 3000 r90 dark"), Math.hypot(4000 - 1000 - 500, 3000 - 500 - 1000));
    assert.equal(gap("flash 12 0 0 r0 dark", "flash 12 9000 0 r0 dark"), 6000);
    assert.equal(gap("draw 10 0 0 9000 9000 r0 dark", "draw 10 0 9000 9000 0 r0 dark"), 0);
    assert.equal(gap("flash 10 0 0 r0 dark", "region dark -9000 -9000 l 9000 -9000 l 9000 9000 l -9000 9000 l -9000 -9000"), 0);
    assert.equal(gap("flash 10 0 0 r0 dark", "region dark -9000 -9000 l 9000 -9000 l 9000 9000 l -9000 9000"), 0);
    assert.equal(gap("flash 10 -10000 0 r0 dark", "region dark -9000 -9000 l 9000 -9000 l 9000 9000 l -9000 9000"), 500);
    assert.equal(gap("region dark 0 0 ccw 0 0 -2000 0", "flash 10 3000 0 r0 dark"), 2500);
    assert.equal(gap("arc 10 5000 0 0 5000 0 0 ccw dark", "flash 10 0 0 r0 dark"), 4000);
    assert.equal(gap("arc 10 5000 0 0 5000 0 0 cw dark", "arc 10 9000 9000 9000 9000 8000 9000 cw dark"), Math.hypot(8000, 9000) - 5000 - 1000 - 1000 > 0
      ? Math.min(Math.hypot(8000 - 5000, 9000), Math.hypot(8000, 9000 - 5000)) - 1000 - 1000 : 0);
    assert.deepEqual(["flash 13 0 0 r0 dark", "flash 14 0 0 r0 dark", "repeat 1 2 0 5 1"].map((words) => shapeOf(words, ENTRIES)), [null, null, null]);
  });

  test("are never more than the way between any points of both, and not much less than the least of many", () => {
    const chance = chances(5), at = () => Math.round(chance() * 40000 - 20000);
    // Points of an item: along its sides, with the pen's edge around each.
    const covered = (shape) => shape.sides.flatMap((side) => Array.from({ length: 60 }, (_, part) => pointOn(side, part / 59)));
    const pointOn = ({ from, to, centre, isClockwise }, part) => {
      if (!centre) return [from[0] + part * (to[0] - from[0]), from[1] + part * (to[1] - from[1])];
      const start = Math.atan2(from[1] - centre[1], from[0] - centre[0]), end = Math.atan2(to[1] - centre[1], to[0] - centre[0]);
      const whole = ((isClockwise ? start - end : end - start) + 4 * Math.PI) % (2 * Math.PI) || 2 * Math.PI, radius = Math.hypot(from[0] - centre[0], from[1] - centre[1]);
      const angle = start + (isClockwise ? -1 : 1) * whole * part;
      return [centre[0] + radius * Math.cos(angle), centre[1] + radius * Math.sin(angle)];
    };
    const arc = () => {
      const [from, middle, to] = [[at(), at()], [at(), at()], [at(), at()]], { centre, isClockwise } = arcThrough(from, middle, to);
      return `arc 10 ${[from, to, centre.map(Math.round)].flat().join(" ")} ${isClockwise ? "cw" : "ccw"} dark`;
    };
    const any = () => [() => `flash 10 ${at()} ${at()} r0 dark`, () => `draw 10 ${at()} ${at()} ${at()} ${at()} r0 dark`, arc,
      () => `flash 12 ${at()} ${at()} r90 dark`][Math.floor(chance() * 4)]();
    for (let turn = 0; turn < 400; turn++) {
      const shapes = [any(), any()].map((words) => shapeOf(words, ENTRIES)), { distance } = gapBetween(...shapes);
      const [ones, others] = shapes.map(covered);
      const least = Math.min(...ones.map((one) => Math.min(...others.map((other) => Math.hypot(one[0] - other[0], one[1] - other[1])))));
      const length = Math.max(...shapes.flatMap(({ sides }) => sides.map((side) => covered({ sides: [side] }).reduce((sum, point, place, all) =>
        place ? sum + Math.hypot(point[0] - all[place - 1][0], point[1] - all[place - 1][1]) : 0, 0))));
      const seen = Math.max(0, least - shapes[0].radius - shapes[1].radius);
      assert.ok(distance <= seen + 1 && distance >= seen - length / 59 - 1, `${distance} ${seen} ${length}`);
    }
  });
});

suite("snaps", () => {
  test("while measuring: to centres, ends, corners and edges, with a sign, and not when they are off", async () => {
    const browser = await withItems();
    await browser.key("m");
    await hover(browser, [0, 0], [4, 3]);
    assert.deepEqual(await sign(browser), ["centre", "top 0", 0, 0]);
    await hover(browser, [5000000, 1000000], [3, -3]);
    assert.deepEqual(await sign(browser), ["end", "top 1", 5000000, 1000000]);
    await hover(browser, [8000000, 500000], [-3, -3]);
    assert.deepEqual(await sign(browser), ["corner", "top 2", 8000000, 500000]);
    await hover(browser, [4000000, -2000000], [2, -4]);
    assert.deepEqual(await sign(browser), ["corner", "top 3", 4000000, -2000000]);
    await hover(browser, [500000, 0], [3, 0]);
    const [kind, of, x, y] = await sign(browser);
    assert.deepEqual([kind, of, Math.round(Math.hypot(x, y))], ["edge", "top 0", 500000]);
    await hover(browser, [1500000, 2000000]);
    assert.equal(await sign(browser), null);
    assert.deepEqual(await dragNear(browser, [0, 0], [3000000, 1000000], { beside: [3, 2], besideEnd: [-2, 3] }), ["end", "top 1", 3000000, 1000000]);
    assert.equal(await text(browser, "told"), "3.162278 mm   dx +3.000  dy +1.000  angle 18.435°");
    await browser.key("z");
    await hover(browser, [0, 0], [4, 3]);
    assert.equal(await sign(browser), null);
    assert.equal(await browser.ask("document.querySelector('[data-act=snaps]').getAttribute('aria-pressed')"), "false");
    await press(browser, "[data-act=snaps]");
    await hover(browser, [0, 0], [4, 3]);
    assert.deepEqual(await sign(browser), ["centre", "top 0", 0, 0]);
    // The other tool shows none.
    await browser.key("v");
    await hover(browser, [0, 0], [3, 3]);
    assert.equal(await sign(browser), null);
    assert.deepEqual(browser.complaints(), []);
  });

  test("words of what is measured", () => {
    assert.equal(distanceWords({ x: 0, y: 0 }, { x: -3000000, y: -4000000 }), "5.000 mm   dx -3.000  dy -4.000  angle -126.870°");
    assert.equal(distanceWords({ x: 7, y: 7 }, { x: 7, y: 7 }, "mil"), "0.0 mil   dx +0.0  dy +0.0");
  });

  test("while drawing: a point that snaps goes to no grid", async () => {
    const browser = await withItems();
    await run(browser, "move top 0 1234 5");
    await browser.key("2");
    await clickNear(browser, [1234, 5], [3, 3]);
    await clickNear(browser, [3000000, 1000000], [-3, 2]);
    await idle(browser);
    assert.equal(await lastLine(browser), "insert top 4 draw 10 1234 5 3000000 1000000 r0 dark -> ok");
    await browser.key("z");
    await clickNear(browser, [1234, 5]);
    await clickNear(browser, [1234, 2500000]);
    await idle(browser);
    const [, ...numbers] = /^insert top 5 draw 10 (-?\d+) (-?\d+) (-?\d+) (-?\d+) r0 dark -> ok$/.exec(await lastLine(browser)).map(Number);
    assert.ok(numbers.every((number) => number % 10000 === 0), `${numbers}`);
    assert.deepEqual(browser.complaints(), []);
  });

  test("while moving: a point of what is dragged goes to another item", async () => {
    const browser = await withItems();
    await clickAt(browser, 9000000, 0);
    await idle(browser);
    // Its corner to the end of the draw; then anything else of it by the grid.
    assert.deepEqual(await dragNear(browser, [8000000, 500000], [5000000, 1000000], { beside: [2, 2], besideEnd: [4, -2] }), ["end", "top 1", 5000000, 1000000]);
    assert.equal(await lastLine(browser), "move top 2 -3000000 500000 -> ok");
    await dragNear(browser, [6300000, 500000], [8333333, 600000]);
    const [, dx, dy] = /^move top 2 (\d+) (\d+) -> ok$/.exec(await lastLine(browser)).map(Number);
    assert.ok(dx % 10000 === 0 && dy % 10000 === 0 && Math.abs(dx - 2033333) < 40000, `${dx} ${dy}`);
    await browser.ask("camplot.machine.gesture({ kind: 'edit', verb: 'undo' })");
    assert.deepEqual((await picked(browser)), ["top 2 flash 11 6000000 500000 r0 dark"]);
    assert.deepEqual(browser.complaints(), []);
  });
});

suite("the origin of lengths", () => {
  test("is where a click says, with its snap; the pointer and the rulers count from it", async () => {
    const browser = await withItems();
    await press(browser, "[data-act=origin]");
    await clickNear(browser, [5000000, 1000000], [2, 2]);
    await idle(browser);
    assert.deepEqual(await browser.ask("camplot.state.origin"), { x: 5000000, y: 1000000 });
    assert.equal(await browser.ask("camplot.state.tool"), "pick");
    await browser.ask(`globalThis.told = []; const { fillText } = CanvasRenderingContext2D.prototype;
      CanvasRenderingContext2D.prototype.fillText = function(words, ...more) { told.push(words); fillText.call(this, words, ...more); };`);
    await browser.mouse("mouseMoved", ...await onPage(browser, 0, 0));
    const [, fromX, fromY] = /from the origin (-?[\d.]+), (-?[\d.]+) mm$/.exec(await text(browser, "place")).map(Number);
    assert.ok(Math.abs(fromX + 5) < 0.03 && Math.abs(fromY + 1) < 0.03, `${fromX} ${fromY}`);
    await settle(browser);
    await browser.wait("told.includes('-6') && told.includes('0') && told.includes('6') && !told.includes('10')", 60);
    await browser.key("O", 8);
    assert.equal(await browser.ask("camplot.state.origin"), null);
    assert.ok(!/origin/.test(await text(browser, "place")));
    assert.deepEqual(browser.complaints(), []);
  });
});

suite("the gap between two items", () => {
  test("is told to the nm by their numbers", async () => {
    const browser = await withItems();
    await clickAt(browser, 0, 0);
    await clickAt(browser, 4000000, 1000000, 8);
    await idle(browser);
    const distance = Math.round(Math.hypot(3000000, 1000000) - 1000000);
    assert.match(await text(browser, "picked"), new RegExp(`gap ${(distance / 1e6).toFixed(6)} mm, to the nm, between 0\\.474342, 0\\.158114 mm and`));
    assert.equal(await browser.ask("camplot.marks.signs.gap !== null"), true);
    await run(browser, "move top 0 2600000 1000000");
    await idle(browser);
    assert.match(await text(browser, "picked"), /They touch or overlap\./);
    await browser.key("Escape");
    await idle(browser);
    assert.equal(await browser.ask("camplot.marks.signs.gap"), null);
    assert.deepEqual(browser.complaints(), []);
  });

  test("of a shape of primitives by pixels, between two lengths", async () => {
    const browser = await openPage();
    const macro = Buffer.from("%FSLAX46Y46*%\n%MOMM*%\n%AMBOX*\n21,1,1.000000,1.000000,0,0,0*\n%\n%ADD10BOX*%\n%ADD11C,1.000000*%\nG01*\nG75*\nD10*\n"
      + "X0Y0D03*\nD11*\nX3000000Y0D03*\nM02*\n");
    await give(browser, [{ name: "m.gtl", bytes: macro }]);
    await settle(browser);
    await browser.ask("camplot.pick([{ name: 'top', place: 0 }, { name: 'top', place: 1 }])");
    await press(browser, "#picked [data-row=gap] button");
    await idle(browser);
    const found = /gap from ([\d.]+) to ([\d.]+) mm, by pixels of ([\d,]+) nm/.exec(await text(browser, "picked"));
    const [least, most] = found.slice(1, 3).map(Number);
    assert.ok(least <= 2 && most >= 2 && most - least < 0.01, found[0]);
    assert.deepEqual((await lines(browser)).length, 1);
    assert.deepEqual(browser.complaints(), []);
  });
});

// The modules that tools/board and the page share: what layers show, windows, and what refusals mean.

import assert from "node:assert/strict";
import { readFileSync } from "node:fs";
import { join } from "node:path";
import { kindOf } from "../../web/board/file_kinds.js";
import { byAttribute, byName, recogniseFiles } from "../../web/board/layers.js";
import { excerpt, meaningsOf, placeOf } from "../../web/board/refusals.js";
import { isCommand, repliesOf, scriptLines } from "../../web/board/replies.js";
import { BOARD, PITCH, SIDE, pitchOf, windowAround, windowLine } from "../../web/board/windows.js";
import { suite, test } from "./harness.js";
import { CASES, REPOSITORY } from "./support.js";

const bytesOf = (text) => Uint8Array.from(Buffer.from(text, "latin1"));

suite("layers", () => {
  test("names of each program", () => {
    for (const [program, names] of Object.entries(JSON.parse(readFileSync(join(CASES, "layer_names.json"), "utf8")))) {
      for (const [name, wanted] of Object.entries(names)) assert.equal(byName(name)?.name, wanted, `${program}: ${name}`);
    }
  });

  test("inner copper lies in its order between the outer layers, and is not shown at first", () => {
    const [first, second, far] = ["a-In1_Cu.gbr", "a-In2_Cu.gbr", "a-In99_Cu.gbr"].map(byName);
    const heights = [byName("a-B_Cu.gbr"), far, second, first, byName("a-F_Cu.gbr")].map(({ height }) => height);
    assert.deepEqual(heights, [12, 13, 57, 58, 60]);
    assert.deepEqual([first.isShown, first.label, byName("a-F_Cu.gbr").isShown], [false, "inner copper 1", true]);
    assert.notEqual(first.colour, second.colour);
  });

  test("names that tell nothing", () => {
    for (const name of ["README.txt", "board.gbr", "A.TXT", "fabric.pdf", "laptop.gbr", "constructor", "a.constructor"]) {
      assert.equal(byName(name), null, name);
    }
  });

  test("attributes", () => {
    for (const [text, wanted] of Object.entries(JSON.parse(readFileSync(join(CASES, "layer_attributes.json"), "utf8")))) {
      assert.equal(byAttribute(bytesOf(`G04 x*\n${text}\n`)).name, wanted, text);
    }
    assert.equal(byAttribute(bytesOf("%TF.Part,Single*%")), null);
    assert.equal(byAttribute(bytesOf("%TF.FileFunction,constructor,toString*%")).name, "other");
  });

  test("kinds of files", () => {
    for (const [head, kind] of [["G04 a*\n", "gerber"], ["%FSLAX24Y24*%", "gerber"], ["; a\r\nM48\r\n", "drill"],
      ["\xef\xbb\xbfM48\nMETRIC\n", "drill"], ["%\nT01C0.5\nX1Y1\nM30\n", "drill"], ["M30\n", "drill"], ["a,b\n1,2\n", null],
      ["Use\n%FSLAX24Y24*%\n", null], ["%PDF-1.4\n%MO", null], ["", null], ["\x89PNG\r\n", null]]) {
      assert.equal(kindOf(bytesOf(head)), kind, head);
    }
  });

  test("kinds of hostile files, at once", () => {
    for (const head of [`M${" ".repeat(65000)}x`, `*${"G04 ".repeat(16000)}`, `X1${"G04 ".repeat(16000)}`,
      `T1\nX${"1".repeat(65000)}`, `G04${"\t".repeat(65000)}`, "TF".repeat(32000)]) {
      const started = Date.now();
      kindOf(bytesOf(head));
      byAttribute(bytesOf(head));
      assert.ok(Date.now() - started < 500, head.slice(0, 10));
    }
  });

  test("a board's layers come from the bottom up, each under a name of its own", () => {
    const file = (name, text) => ({ name, bytes: bytesOf(text) });
    const { layers, others } = recogniseFiles([file("a.gtl", "G04 x*"), file("readme.txt", "hello"), file("b.gtl", "G04 x*"),
      file("a.drl", "M48\n"), file("a.gbl", ""), file("F_Fab.gbr", "%FSLAX24Y24*%"), file("x.gbr", "%FSLAX24Y24*%")], false);
    assert.deepEqual(layers.map(({ name, kind, toldBy }) => [name, kind, toldBy]), [["bottom", "gerber", "its name"],
      ["top", "gerber", "its name"], ["top-2", "gerber", "its name"], ["drawing", "gerber", "its name"],
      ["other", "gerber", "what it holds"], ["holes", "drill", "its name"]]);
    assert.deepEqual(others.map(({ name }) => name), ["readme.txt"]);
    assert.equal(layers[3].layerFunction.label, "fabrication drawing, top");
    assert.equal(recogniseFiles([file("readme.txt", "hello")], true).layers[0].name, "other");
  });
});

suite("windows", () => {
  test("a window stands around its box with a margin", () => {
    const window = windowAround({ left: 0, low: -20_000_000, right: 30_000_000, high: 0 }, [], 25_400);
    assert.equal(windowLine(window), "window -1016000 -21005800 25400 1261 867");
  });

  test("windows keep to their limits", () => {
    const far = 999_999_999;
    for (const [box, dpi] of /** @type {[[number, number, number, number], number][]} */ ([
      [[-far, -far, far, far], 25400], [[0, 0, 0, 0], 1], [[far, far, far, far], 1000],
      [[-far, 0, far, 1], 25_400_000], [[-far, far - 9, 9 - far, far], 2540], [[0, 0, 400_000_000, 3], 2540]])) {
      const [left, low, right, high] = box, { x, y, pitch, width, height } = windowAround({ left, low, right, high }, [], pitchOf(dpi));
      assert.ok(1 <= width && width <= SIDE && 1 <= height && height <= SIDE && 1 <= pitch && pitch <= PITCH, String(box));
      for (const [first, count] of [[x, width], [y, height]]) {
        assert.ok(2 * first + pitch > -2 * BOARD && 2 * (first + count * pitch) - pitch < 2 * BOARD, String(box));
      }
    }
  });

  test("there is none around nothing", () => {
    assert.equal(windowAround(null, [], 25_400), null);
  });
});

suite("refusals", () => {
  const page = readFileSync(join(REPOSITORY, "docs", "refusals.md"), "utf8");

  test("each number has a meaning", () => {
    const numbers = [...page.matchAll(/\*\*(\d+), |^\| (\d+) \|/gm)].map(([, head, row]) => Number(head ?? row));
    const { general, drill } = meaningsOf(page);
    assert.ok(new Set(numbers).size > 50);
    assert.deepEqual(new Set(general.keys()), new Set(numbers));
    for (const [number, { name, sentence }] of [...general, ...drill]) {
      assert.ok(name && sentence.length > 10 && sentence.length < 420, `${number}: ${sentence}`);
    }
    assert.ok(drill.size > 2);
    assert.match(drill.get(1).sentence, /byte order mark/);
  });

  test("places are told by line and column", () => {
    const utf8 = (text) => new TextEncoder().encode(text);
    for (const [source, at, place] of /** @type {[string, number, [number, number]][]} */ ([
      ["ab\ncd", 3, [2, 1]], ["ab\r\ncd", 5, [2, 2]], ["ab\rcd", 4, [2, 2]],
      ["é\né%", 5, [2, 2]], ["", 0, [1, 1]], ["a\n", 2, [2, 1]], ["a\r\n", 2, [1, 2]]])) {
      const { line, column } = placeOf(utf8(source), at);
      assert.deepEqual([line, column], place, JSON.stringify(source));
    }
    assert.equal(excerpt(utf8("ab\r\n\u0001x <b>\u00a0é\nz"), 2), "?x <b>?é");
  });
});

suite("replies", () => {
  test("each line that has a reply has its own", () => {
    const lines = scriptLines("# a\n\n\t\r\nlist top\r\nundo");
    assert.deepEqual(lines.map(isCommand), [false, false, false, true, true]);
    const replies = repliesOf(lines, "ok 3\nrefused 70\n");
    assert.deepEqual(replies.map(({ number, line, isAccepted }) => [number, line, isAccepted]),
      [[4, "list top", true], [5, "undo", false]]);
    assert.deepEqual([replies[0].count, replies[1].refusal, replies[1].at], [3, 70, null]);
    assert.equal(repliesOf(lines, "ok\n"), null);
  });
});

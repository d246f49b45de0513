// web/materials: the material of each pixel of both sides of a board, next to a plain program.

import assert from "node:assert/strict";
import { readFileSync } from "node:fs";
import { join } from "node:path";
import { bitsOf, blackBox, mirroredBits } from "../../web/materials/bits.js";
import { FINISH_NAMES, MASK_NAMES, coloursOf } from "../../web/materials/colours.js";
import { MATERIALS, materialAt, nibbleRows, wallPixels } from "../../web/materials/materials.js";
import { NO_OUTLINE, OPEN_OUTLINE, SIDES, boardOf, sideOf } from "../../web/materials/sides.js";
import { withinOutline } from "../../web/materials/within.js";
import { readPbm } from "../../web/bytes/pbm.js";
import { part, suite, test } from "./harness.js";
import { chances, pbm } from "./pictures.js";
import { plainMaterials } from "./plain_materials.js";
import { REPOSITORY } from "./support.js";

// A picture of letters: each line a row, `#` black.
function drawn(...rows) {
  return readPbm(pbm(rows[0].length, rows.length, (column, row) => rows[row][column] === "#"));
}

// A picture as letters again.
function letters({ width, height, stride, words }) {
  return Array.from({ length: height }, (_, row) => Array.from({ length: width }, (__, column) => {
    return words[row * stride + (column >> 5)] >>> (31 - (column & 31)) & 1 ? "#" : ".";
  }).join(""));
}

const plotted = (layers) => layers.map(({ shows, said, picture }) => ({ shows, said, bits: bitsOf(picture) }));

// Both programs on both sides; how many pixels of each material there are.
function compareSides(layers, pitch) {
  const ours = plotted(layers), { board } = boardOf(ours), counts = new Map();
  for (const side of SIDES) {
    const { materials } = sideOf(ours, side, board, pitch), plain = plainMaterials(layers, side, pitch);
    const rows = nibbleRows(materials), bytes = rows.length / materials.height;
    plain.forEach((row, y) => row.forEach((name, x) => {
      const number = materialAt(materials, x, y), place = `${side} ${x} ${y}`;
      if (MATERIALS[number] !== name) assert.fail(`${place}: ${MATERIALS[number]}, and ${name} by the plain program`);
      if ((rows[y * bytes + (x >> 1)] >> (x & 1 ? 0 : 4) & 15) !== number) assert.fail(`${place}: another number in the rows`);
      counts.set(name, (counts.get(name) ?? 0) + 1);
    }));
  }
  return counts;
}

// Random shapes of a picture: discs, bars, rectangles and frames.
function shapes(chance, width, height, count) {
  const whole = (most) => Math.floor(chance() * most);
  const made = Array.from({ length: count }, () => ({ kind: whole(4), x: whole(width), y: whole(height), size: 1 + whole(height / 3), thick: 1 + whole(4) }));
  return readPbm(pbm(width, height, (column, row) => made.some(({ kind, x, y, size, thick }) => {
    const across = Math.abs(column - x), down = Math.abs(row - y);
    if (kind === 0) return across * across + down * down < size * size / 4;
    if (kind === 1) return down < thick && across < size * 2;
    const far = Math.max(across, down);
    return kind === 2 ? far < size / 2 : far < size && far >= size - thick;
  })));
}

// The frame of a board, with a cutout, perhaps with an island, a gap, and lines that enclose nothing.
function frames(chance, width, height) {
  const gap = chance() < 0.2, cutout = chance() < 0.7, island = chance() < 0.5, tail = chance() < 0.5, thick = 1 + Math.floor(chance() * 3);
  const ring = (column, row, margin) => {
    const far = Math.min(column, row, width - 1 - column, height - 1 - row);
    return far >= margin && far < margin + thick;
  };
  return readPbm(pbm(width, height, (column, row) => {
    if (gap && row === height >> 1 && column < width >> 1) return false;
    return ring(column, row, 3) || cutout && ring(column, row, Math.floor(height / 4)) || island && ring(column, row, Math.floor(height / 3))
      || tail && column === row && column < height / 3 || chance() < 0.001;
  }));
}

const KINDS = [["top", "Copper,L1,Top"], ["bottom", "Copper,L4,Bot"], ["top-mask", null], ["bottom-mask", null], ["top-silk", null],
  ["bottom-silk", null], ["plated", "Plated,1,4,PTH"], ["plated", "Plated,1,2,Blind"], ["plated", "Plated,3,4,Blind"],
  ["plated", "Plated,2,3,Buried"], ["holes", null], ["nonplated", "NonPlated,1,4,NPTH"], ["top-paste", null]];

// A random board: each layer is there or not.
export function randomBoard(seed) {
  const chance = chances(seed), width = 20 + Math.floor(chance() * 120), height = 20 + Math.floor(chance() * 60);
  const layers = KINDS.filter(() => chance() < 0.75)
    .map(([shows, said]) => ({ shows, said, picture: shapes(chance, width, height, Math.floor(chance() * 9)) }));
  const outlines = chance() < 0.8 ? [{ shows: "outline", said: null, picture: frames(chance, width, height) }] : [];
  return { layers: [...outlines, ...layers, { shows: "drawing", said: null, picture: shapes(chance, width, height, 2) }],
    pitch: [50_000, 25_400, 10_000, 5000, 1000][Math.floor(chance() * 5)] };
}

suite("materials", () => {
  test("of random boards, next to a plain program", () => {
    const counts = new Map();
    const seeds = Array.from({ length: Number(process.env.BOARDS ?? 10) }, (_, at) => at + Number(process.env.SEED ?? 1));
    for (const seed of seeds) {
      part(`board ${seed}`, () => {
        const { layers, pitch } = randomBoard(seed);
        for (const [name, count] of compareSides(layers, pitch)) counts.set(name, (counts.get(name) ?? 0) + count);
      });
    }
    for (const name of MATERIALS) assert.ok(counts.get(name) > 20, `${counts.get(name)} pixels of ${name}`);
  });

  test("each by its condition", () => {
    const width = 12, row = (text) => drawn(...Array.from({ length: 3 }, () => text.padEnd(width, "."))), all = row("############");
    const layers = [{ shows: "outline", said: null, picture: all }];
    const names = (more) => {
      const ours = plotted([...layers, ...more]), { materials } = sideOf(ours, "top", bitsOf(all), 25_400);
      return Array.from({ length: width }, (_, x) => MATERIALS[materialAt(materials, x, 1)]);
    };
    assert.deepEqual(new Set(names([])), new Set(["laminate"]));
    const made = [{ shows: "top", said: null, picture: row("..####") }, { shows: "top-mask", said: null, picture: row("#...##") },
      { shows: "top-silk", said: null, picture: row(".#.##.....##") }, { shows: "plated", said: null, picture: row("......#####.") },
      { shows: "nonplated", said: null, picture: row("..........##") }];
    assert.deepEqual(names(made), ["laminate", "silkscreen", "mask over copper", "silkscreen", "copper", "copper", "plated wall", "nothing",
      "nothing", "nothing", "nothing", "nothing"]);
    // (the wall stops where a hole without plating cuts it, and a print is whole where there is no mask)
    assert.deepEqual(names(made.filter(({ shows }) => shows !== "top-mask")).slice(0, 6), ["laminate", "silkscreen", "copper", "silkscreen",
      "silkscreen", "copper"]);
  });

  test("walls at the ends of words and at the sides of the window", () => {
    const chance = chances(11);
    for (const [width, pitch] of [[32, 10_000], [33, 1500], [63, 1500], [64, 5000], [65, 3000], [97, 1500], [100, 25_400], [130, 1500]]) {
      const height = 40, all = readPbm(pbm(width, height, () => true));
      const discs = Array.from({ length: 4 }, () => [chance() * width, chance() * height, 3 + chance() * 25]);
      const plated = readPbm(pbm(width, height, (column, row) => discs.some(([x, y, size]) => Math.hypot(column - x, row - y) < size)));
      const layers = [{ shows: "outline", said: null, picture: readPbm(pbm(width, height, (column, row) => column % (width - 1) === 0 || row % (height - 1) === 0)) },
        { shows: "plated", said: null, picture: plated }, { shows: "top", said: null, picture: all }];
      part(`${width} pixels of ${pitch} nm`, () => assert.ok(compareSides(layers, pitch).get("plated wall") > 40));
    }
  });

  test("a wall is as wide as 25 µm, at least a pixel and at most 16", () => {
    assert.deepEqual([100_000, 25_400, 12_500, 5000, 1500, 1].map(wallPixels), [1, 1, 2, 5, 16, 16]);
  });

  test("pictures of two windows are refused", () => {
    const layers = plotted([{ shows: "top", said: null, picture: drawn("##") }, { shows: "top-mask", said: null, picture: drawn("#") }]);
    assert.throws(() => sideOf(layers, "top", boardOf(layers).board, 1), /of 2 by 1 and of 1 by 1 pixels are of two windows/);
  });
});

suite("the board", () => {
  test("within closed lines, without cutouts, with what lies in these", () => {
    const outline = drawn("............#..", ".#########.....", ".#.......#.###.", ".#.#####.#.#.#.", ".#.#...#.#.###.", ".#.#.#.#.#.....",
      ".#.#...#.#..#..", ".#.#####.#.#...", ".#.......#.....", ".#########.....", "...............");
    assert.deepEqual(letters(withinOutline(bitsOf(outline))), ["...............", ".#########.....", ".#########.###.", ".#########.###.",
      ".###...###.###.", ".###...###.....", ".###...###.....", ".#########.....", ".#########.....", ".#########.....", "..............."]);
  });

  test("corners close a line, and a gap opens it", () => {
    const ring = ["......", "..##..", ".#..#.", ".#..#.", "..##..", "......"];
    assert.deepEqual(letters(withinOutline(bitsOf(drawn(...ring)))), ["......", "..##..", ".####.", ".####.", "..##..", "......"]);
    assert.equal(withinOutline(bitsOf(drawn(...ring.slice(0, 4), "..#...", "......"))), null);
    assert.equal(withinOutline(bitsOf(drawn("####", "####"))), null);
  });

  test("a line that the window cuts is open there", () => {
    const cut = ["#...#", "#...#", "#####"];
    const turned = [0, 1, 2, 3, 4].map((column) => cut.map((row) => row[column]).join(""));
    for (const rows of [cut, cut.slice().reverse(), turned, turned.map((row) => [...row].reverse().join(""))]) {
      assert.equal(withinOutline(bitsOf(drawn(...rows))), null, rows.join("\n"));
    }
    assert.deepEqual(letters(withinOutline(bitsOf(drawn("#####", "#...#", "#####")))), ["#####", "#####", "#####"]);
  });

  test("without an outline, or with an open one, it is a box, which is told", () => {
    const copper = { shows: "top", said: null, picture: drawn(".....", "..#..", "...#.", ".....") };
    const drawing = { shows: "drawing", said: null, picture: drawn("#....", ".....", ".....", ".....") };
    const open = { shows: "outline", said: null, picture: drawn(".....", "....#", ".....", ".###.") };
    const none = { shows: "outline", said: null, picture: drawn(".....", ".....", ".....", ".....") };
    const boards = [[copper, drawing], [copper, none], [copper, none, open]].map((layers) => boardOf(plotted(layers)));
    assert.deepEqual(boards.map(({ told }) => told), [NO_OUTLINE, NO_OUTLINE, OPEN_OUTLINE]);
    assert.deepEqual(letters(boards[0].board), [".....", "..##.", "..##.", "....."]);
    assert.deepEqual(letters(boards[2].board), [".....", ".####", ".####", ".####"]);
    assert.deepEqual(letters(boardOf(plotted([drawing])).board), [".....", ".....", ".....", "....."]);
  });
});

suite("pictures in words", () => {
  test("of all widths: boxes and mirrors", () => {
    const chance = chances(3);
    for (let width = 1; width < 100; width++) {
      const rows = Array.from({ length: 3 }, () => Array.from({ length: width }, () => (chance() < 0.1 ? "#" : ".")).join(""));
      const bits = bitsOf(drawn(...rows)), box = blackBox(bits), columns = rows.flatMap((row) => [...row].flatMap((letter, at) => (letter === "#" ? [at] : [])));
      assert.deepEqual(letters(bits), rows);
      assert.deepEqual(letters(mirroredBits(bits)), rows.map((row) => [...row].reverse().join("")));
      if (!columns.length) assert.equal(box, null);
      else assert.deepEqual([box.left, box.right], [Math.min(...columns), Math.max(...columns) + 1]);
    }
  });
});

suite("colours", () => {
  test("are those of docs/page.md", () => {
    const page = readFileSync(join(REPOSITORY, "docs", "page.md"), "utf8"), rows = [...page.matchAll(/^\| (\w+) \| `(#\w+)` \|.*$/gm)];
    const colours = new Map(rows.map(([row, name]) => [name, row.match(/#[0-9a-f]{6}/g)]));
    assert.deepEqual([...colours.keys()], [...MASK_NAMES, ...FINISH_NAMES]);
    for (const mask of MASK_NAMES) {
      for (const finish of FINISH_NAMES) {
        const [, , over, overCopper, copper, silkscreen, wall] = coloursOf(mask, finish);
        assert.deepEqual([over, overCopper, silkscreen], colours.get(mask));
        assert.deepEqual([copper, wall], colours.get(finish));
      }
    }
  });

  test("tell all materials apart, in each mask and finish", () => {
    assert.deepEqual(MASK_NAMES, ["green", "red", "blue", "black", "white", "purple", "yellow"]);
    assert.deepEqual(FINISH_NAMES, ["tin", "gold", "copper"]);
    for (const mask of MASK_NAMES) {
      for (const finish of FINISH_NAMES) {
        const colours = coloursOf(mask, finish);
        assert.equal(new Set(colours).size, MATERIALS.length);
        for (const colour of colours) assert.match(colour, /^#[0-9a-f]{6}$/);
      }
    }
  });
});

// tools/nets on fourteen kinds of board: each is clean, by its netlist and by its attributes; of one with a short, an open and a missing
// hole these are told, at their places, and nothing else.

import assert from "node:assert/strict";
import { join } from "node:path";
import { part, suite, test } from "./harness.js";
import { KINDS, madeBoard } from "./kinds_of_boards.js";
import { chances } from "./pictures.js";
import { write } from "./small_boards.js";
import { foundIn, newRoom } from "./support_nets.js";

// How many parts a board has along a side: more by hand, as COUNT=6 tools/test kinds_of.
const COUNT = Number(process.env.COUNT ?? 1);
// In mm, at a pitch of 0.01: a pixel's diagonal.
const DIAGONAL = 0.0142;
// Half a castellated pad lies on the board, and may be told anywhere in it.
const HALF_PAD = 0.6;
// On one side alone a missing hole opens nothing: a rule tells it.
const RULE = new Map([["pad-hole", 50_000]]);

const away = ({ x, y }, [toX, toY]) => Math.hypot(Number(x) - toX, Number(y) - toY);
const isOf = (net, wanted) => net === wanted || net.startsWith(`${wanted} of the copy at `);

function checkShort({ nets, touching }, { nets: wanted, place, width }) {
  assert.deepEqual(nets.map(({ net }, at) => isOf(net, wanted[at])), [true, true], nets.map(({ net }) => net).join(" "));
  assert.ok(away(touching[0].place, place) <= DIAGONAL, `touching at ${JSON.stringify(touching[0].place)} in place of ${place}`);
  assert.ok(Math.abs(touching[0].width - width) <= DIAGONAL, `${touching[0].width} wide in place of ${width}`);
}

function checkOpen({ net, parts, gaps }, { net: wanted, ends }) {
  assert.ok(isOf(net, wanted), net);
  assert.deepEqual([parts.length, gaps.map(({ kind }) => kind)], [2, ["copper"]]);
  const [{ from, to }] = gaps, isTurned = away(from, ends[0]) > away(from, ends[1]);
  [from, to].forEach((place, at) => {
    assert.ok(away(place, ends[isTurned ? 1 - at : at]) <= DIAGONAL, `${JSON.stringify(place)} in place of ${ends.join(" ")}`);
  });
}

function checkHole({ net, gaps }, { net: wanted, place }, most) {
  assert.ok(isOf(net, wanted), net);
  assert.ok(gaps.length >= 1);
  // By attributes a castellated pad stands for each layer by itself: where they lie over each other is told next to the nearest copper.
  for (const { from, to, over } of gaps) {
    for (const end of over ? [over] : [from, to]) assert.ok(away(end, place) <= most, `${JSON.stringify(end)} in place of ${place}`);
  }
}

/** @param {*} found @param {*[]} planted @param {import("./kinds_of_boards.js").Kind} kind */
function checkPlanted({ opens, shorts, withoutCopper, rules }, planted, { isFlat, hasOutlines }) {
  const [short, open, hole] = ["short", "open", "hole"].map((kind) => planted.find((fault) => fault.kind === kind));
  assert.equal(shorts.length, 1);
  checkShort(shorts[0], short);
  assert.equal(opens.length, isFlat ? 1 : 2, opens.map(({ net }) => net).join(" "));
  checkOpen(opens.find(({ net }) => isOf(net, open.net)), open);
  if (isFlat) assert.deepEqual(rules.map((breach) => [breach.rule, away(breach, hole.place) <= DIAGONAL]), [["pad-hole", true]]);
  else checkHole(opens.find(({ net }) => isOf(net, hole.net)), hole, hasOutlines ? HALF_PAD : DIAGONAL);
  assert.deepEqual(withoutCopper, []);
}

suite("kinds of board", () => {
  for (const [at, [name, kind]] of [...KINDS].entries()) {
    test(`${name}: clean, and with a short, an open and a missing hole`, () => {
      for (const isPlanted of [false, true]) {
        const room = newRoom(), board = madeBoard(name, chances(14 + at), kind.isPanel ? COUNT + 1 : COUNT, isPlanted);
        write(room, board.files());
        const foundBy = foundIn(room, kind.isFlat ? RULE : new Map());
        for (const netlist of [join(room, "nets.d356"), null]) {
          part(`${isPlanted ? "planted" : "clean"}, ${netlist ? "by its netlist" : "by its attributes"}`, () => {
            const found = foundBy(netlist), { opens, shorts, withoutCopper, withoutPoint, rules, hasFault } = found;
            if (isPlanted) checkPlanted(found, board.planted, kind);
            else assert.deepEqual([hasFault, opens, shorts, withoutCopper, withoutPoint, rules], [false, [], [], [], [], []]);
          });
        }
      }
    });
  }
});

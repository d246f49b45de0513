// tools/nets: net ties, nets that may touch, and accepted findings.

import assert from "node:assert/strict";
import { readFileSync, writeFileSync } from "node:fs";
import { join } from "node:path";
import { isSame, lineOf, readAccepted } from "../../web/nets/accepted.js";
import { suite, test } from "./harness.js";
import { box, draw, flash, gerber, net, netlist, region, write } from "./small_boards.js";
import { newRoom, nets, netsFound } from "./support_nets.js";

// Two nets of two pads each, tied by a region that has both.
/** @type {[name: string, places: number[][]][]} */
const PADS = [["A", [[2, 2], [8, 2]]], ["B", [[2, 6], [8, 6]]]];
const TRACKS = PADS.map(([name, places]) => net(name, flash(11, ...places), draw(10, ...places))), TIE = net("A,B", region(...box(2.9, 2, 3.1, 6)));
const BRIDGE = draw(10, [6, 2], [6, 6]);
const top = (...lines) => gerber("Copper,L1,Top", ["C,0.3", "C,1"], ...TRACKS, ...lines);
const LIST = netlist(PADS.flatMap(([name, places]) => places.map(([x, y], at) => ({ code: 327, net: name, part: `${name}${at}`, access: 1, x, y, width: 1 }))));

function roomWith(...lines) {
  const room = newRoom();
  write(room, { "t.gbr": top(...lines), "l.d356": LIST });
  return room;
}

const truths = (room) => [[], ["--ipc", join(room, "l.d356")]];

suite("net ties", () => {
  test("an item of two nets is no short, and hides none", () => {
    const tied = roomWith(TIE), shorted = roomWith(TIE, BRIDGE);
    for (const words of truths(tied)) assert.deepEqual(netsFound([tied, ...words]).shorts, []);
    for (const words of truths(shorted)) {
      const { shorts: [{ touching: [{ place, width }] }, ...others] } = netsFound([shorted, ...words], 1);
      assert.deepEqual(others, []);
      assert.ok(Math.hypot(place.x - 6, place.y - 4) < 0.2 && Math.abs(width - 0.3) < 0.0142, `${place.x}, ${place.y}: ${width}`);
    }
  });

  test("--may-touch", () => {
    const room = roomWith(BRIDGE);
    for (const words of truths(room)) {
      assert.equal(netsFound([room, ...words], 1).shorts.length, 1);
      assert.equal(netsFound([room, ...words, "--may-touch", "B,C"], 1).shorts.length, 1);
      assert.deepEqual(netsFound([room, ...words, "--may-touch", "B,A"]).shorts, []);
    }
    nets([room, "--may-touch", "A"], 2);
  });
});

suite("accepted findings", () => {
  test("a line is read as it is written, and others are refused", () => {
    const finding = { kind: "short", nets: ["A, \"B\"", "C"], layer: "top", x: 1.23456, y: -2, reason: "it was so: always" };
    const { findings, refusals } = readAccepted(`# a comment\n\n${lineOf(finding)}\nno JSON\n{"kind":"short"}\n`);
    assert.ok(isSame(findings[0], finding));
    assert.ok(isSame({ ...finding, nets: ["C", "A, \"B\""], x: 1.3 }, finding));
    for (const other of [{ x: 1.4 }, { kind: "open" }, { nets: ["C"] }, { layer: "bottom" }]) assert.ok(!isSame({ ...finding, ...other }, finding));
    assert.deepEqual([findings.length, findings[0].reason, refusals.map(({ line }) => line)], [1, finding.reason, [4, 5]]);
  });

  test("accepted, found again, and gone", () => {
    const room = roomWith(BRIDGE), path = join(room, "nets.accepted");
    nets([room], 1);
    assert.match(nets([room, "--accept", "a net tie of ours"]), /1 finding accepted in .*nets\.accepted:\n {2}short: A and B at \(6\.00\d, 4\.0\d\d\) on top: a net tie of ours/);
    assert.match(readFileSync(path, "utf8"), /^\{"kind":"short","nets":\["A","B"\],"layer":"top","x":6/);
    assert.match(nets([room]), /0 opens, 0 shorts/);
    assert.equal(netsFound([room]).accepted.length, 1);
    // Another place is another finding; the first one is gone.
    writeFileSync(join(room, "t.gbr"), top(draw(10, [5, 2], [5, 6])));
    assert.match(nets([room], 1), /1 short[^]*accepted and gone: short: A and B at \(6\.00/);
    const other = join(room, "other");
    assert.match(nets([room, "--accepted", other], 1), /1 short/);
    // (a last line without its end stays a line of its own)
    writeFileSync(other, "# ours");
    nets([room, "--accepted", other, "--accept", "so be it"]);
    assert.match(readFileSync(other, "utf8"), /^# ours\n\{"kind":"short",.*\}\n$/);
    writeFileSync(other, "{}\n");
    assert.match(nets([room, "--accepted", other], 2), /other: line 1: it has no kind/);
  });
});

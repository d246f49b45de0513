// tools/nets: points of items that are cleared in part, and of those in repeats and blocks.

import assert from "node:assert/strict";
import { readFileSync } from "node:fs";
import { join } from "node:path";
import { part, suite, test } from "./harness.js";
import { box, clear, draw, drill, flash, gerber, net, netlist, region, write } from "./small_boards.js";
import { newRoom, netsFound } from "./support_nets.js";

// The plane of the Gerber specification: a dark region, antipads cleared, and pads in them; vias of another net, and of its own.
const PADS = [[2, 2], [5, 5], [8, 8], [3, 8]], OWN = [[8, 2], [5.2, 1.1]];
const APERTURES = ["C,1.4", "C,0.8", "C,0.3"];
const plane = (...more) => gerber("Copper,L2,Inr,Plane", APERTURES, net("GND", region(...box(0, 0, 10, 10))),
  clear(flash(10, ...PADS)), ...PADS.map((place, at) => net(`S${at}`, flash(11, place))), net("GND", flash(11, ...OWN)), ...more);
const top = gerber("Copper,L1,Top", APERTURES, ...PADS.map((place, at) => net(`S${at}`, flash(11, place))), net("GND", flash(11, ...OWN), draw(12, ...OWN)));
const bottom = top.replace("L1,Top", "L3,Bot");
const holes = drill("Plated,1,3,PTH", [{ diameter: 0.4, hits: [...PADS, ...OWN] }]);

const counts = ({ opens, shorts, withoutCopper }) => [opens.length, shorts.length, withoutCopper.length];

function found(files, words = [], status = 0) {
  const room = newRoom();
  write(room, files);
  return netsFound([room, ...words], status);
}

suite("clear polarity", () => {
  test("a plane with antipads cleared", () => {
    assert.deepEqual(counts(found({ "t.gbr": top, "p.gbr": plane(), "b.gbr": bottom, "h.drl": holes })), [0, 0, 0]);
  });

  test("a region whose first places are cleared, and a draw whose ends are", () => {
    const cleared = clear(region(...box(1, 4, 9, 6)), flash(10, [0.5, 12], [9.5, 12]));
    const files = { "t.gbr": gerber("Copper,L1,Top", APERTURES, net("GND", region(...box(0, 0, 10, 10))), net("A", draw(11, [0.5, 12], [9.5, 12])), cleared) };
    assert.deepEqual(counts(found(files)), [0, 0, 0]);
  });

  test("what is cleared as a whole has no copper", () => {
    const files = { "t.gbr": gerber("Copper,L1,Top", APERTURES, net("A", flash(11, [1, 1])), net("B", flash(11, [4, 4])), clear(region(...box(3, 3, 5, 5)))) };
    const told = found(files, [], 1);
    assert.deepEqual(counts(told), [0, 0, 1]);
    assert.equal(told.withoutCopper[0].net, "B");
  });

  test("a real short and a real open in such a plane", () => {
    const files = { "t.gbr": top, "b.gbr": bottom, "h.drl": holes };
    const short = found({ ...files, "p.gbr": plane(draw(12, [5, 5], [5, 3])) }, [], 1);
    assert.deepEqual(counts(short), [0, 1, 0]);
    assert.deepEqual(short.shorts[0].nets.map(({ net: name }) => name).sort(), ["GND", "S1"]);
    const open = found({ ...files, "p.gbr": plane(clear(draw(11, [5, 11], [5, -1]))) }, [], 1);
    assert.ok(open.opens.some(({ net: name }) => name === "GND"));
  });

  test("a pad with a hole in it, and a pad of a macro that is white in its middle", () => {
    // Discs of B lie in rings of A, which draws of A join.
    const apertures = ["C,2X1.4", "RING", "C,1", "C,0.2"], macro = "%AMRING*1,1,2,0,0*1,0,1.4,0,0*%";
    const text = gerber("Copper,L1,Top", apertures, net("A", flash(10, [2, 2]), flash(11, [6, 2]), draw(13, [2.85, 2], [5.15, 2])),
      net("B", flash(12, [2, 2], [6, 2]))).replace("%ADD10", `${macro}\n%ADD10`);
    const { opens: [{ net: opened, parts }, ...others], shorts, withoutCopper } = found({ "t.gbr": text }, [], 1);
    assert.deepEqual([opened, parts.length, others.length, shorts.length, withoutCopper.length], ["B", 2, 0, 0, 0]);
  });
});

suite("panels", () => {
  const tracks = (more = "") => [net("A", draw(12, [1, 1], [4, 1]), flash(11, [1, 1], [4, 1])), net("B", draw(12, [1, 3], [4, 3]), flash(11, [1, 3], [4, 3])), more];
  const list = netlist(["A", "B"].flatMap((name, row) => [1, 4].map((x) => ({ code: 327, net: name, part: `${name}${x}`, access: 1, x, y: 1 + 2 * row, width: 0.8 }))));
  const repeat = (...lines) => ["%SRX3Y2I10J8*%", ...lines, "%SR*%"];
  const blocks = (...lines) => ["%ABD20*%", ...lines, "%AB*%", "D20*", ...[[0, 0], [10, 0], [20, 0], [0, 8], [10, 8]].map(([x, y]) => `X${x * 1e6}Y${y * 1e6}D03*`)];

  test("attributes and netlists in repeats and blocks", () => {
    /** @type {[name: string, panel: (...lines: string[]) => string[], count: number][]} */
    const panels = [["repeat", repeat, 6], ["blocks", blocks, 5]];
    for (const [name, panel, count] of panels) {
      part(name, () => {
        const files = { "t.gbr": gerber("Copper,L1,Top", APERTURES, ...panel(...tracks())), "l.d356": list };
        const room = newRoom();
        write(room, files);
        for (const words of [[], ["--ipc", join(room, "l.d356")]]) {
          const told = netsFound([room, ...words]);
          assert.deepEqual(counts(told), [0, 0, 0]);
          assert.equal(told.withoutPoint.length, 0);
          assert.equal(told.nets, 2 * count);
        }
        // A short in each of the copies.
        write(room, { "t.gbr": gerber("Copper,L1,Top", APERTURES, ...panel(...tracks(draw(12, [2, 1], [2, 3])))) });
        for (const words of [[], ["--ipc", join(room, "l.d356")]]) assert.equal(netsFound([room, ...words], 1).shorts.length, count);
        assert.match(readFileSync(join(room, "t.gbr"), "latin1"), /TO\.N,A/);
      });
    }
  });
});

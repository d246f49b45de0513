// Names and values that a file gives, which the words of items look up: none is found that is not theirs, as each object of
// JavaScript has a `constructor`.

import assert from "node:assert/strict";
import { aboutBoard } from "../telling/about.js";
import { attributeRows } from "../telling/attributes.js";
import { drillLayer, layer, layerOfText, tool } from "./telling.js";
import { fileSays } from "../telling/files.js";
import { find } from "../telling/find.js";
import { indexOf } from "../telling/search_index.js";
import { itemWords } from "../telling/item.js";
import { latin1Bytes } from "../bytes/index.js";
import { part, suite, test } from "../../tools/tests/harness.js";

const NAMES = ["constructor", "toString", "hasOwnProperty", "__proto__"];

const jobFile = (shows) => ({ name: "a.gbrjob", bytes: latin1Bytes(JSON.stringify({ Header: {}, FilesAttributes: [{ Path: "a.gbr", FileFunction: shows }] })) });

suite("names of files", () => {
  test("of mountings are those of the standard", () => {
    for (const name of NAMES) {
      const top = layerOfText(`%FSLAX46Y46*%\n%MOMM*%\n%ADD10C,1*%\n%TO.C,R1*%\n%TO.CMnt,${name}*%\nD10*\nX0Y0D03*\nM02*\n`, []);
      assert.deepEqual(attributeRows(top.said[0].attributes, new Map()), [["component", "R1"], ["mounting", name]]);
    }
  });

  test("of what a tool is for say nothing of plating", () => {
    for (const name of NAMES) {
      const says = fileSays("drill", latin1Bytes(`M48\n; #@! TA.AperFunction,${name}\nT1C0.8\n%\nM30\n`));
      const holes = layer({ kind: "drill", shows: "holes", items: ["hit 1 0 0"], entries: tool(1, 0.8), says, attributes: [`.FileFunction,${name}`] });
      part(name, () => {
        assert.equal(holes.isPlated(1), null);
        assert.equal(itemWords(holes, 0, { unit: "mm" }).head, "hole 0.80 mm, at 0.000, 0.000");
      });
    }
  });

  test("of functions in a job file stand as it has them", () => {
    for (const name of NAMES) {
      const { rows } = aboutBoard([], { unit: "mm", job: jobFile(`${name},Top`) });
      const [, told] = rows.find(([what]) => what === "job file: missing file");
      assert.doesNotMatch(told, /function|native|\[object/, name);
    }
  });

  test("of nets, components, pins and attributes are found by themselves alone", () => {
    const commands = NAMES.map((name, at) => `%TO.N,${name}*%\n%TO.P,${name},${name}*%\n%TO${name},${name}*%\nX${at}Y0D03*\n%TD*%\n`).join("");
    const top = layerOfText(`%FSLAX46Y46*%\n%MOMM*%\n%ADD10C,1*%\nD10*\n${commands}M02*\n`, []), index = indexOf([top], "mm");
    for (const [at, name] of NAMES.entries()) {
      const { groups } = find(index, name);
      for (const kind of ["net", "component", "attribute"]) {
        const exact = groups.find((group) => group.kind === kind).results.filter(({ lights }) => lights.some(({ places }) => places?.includes(at)));
        part(`${kind} ${name}`, () => assert.equal(exact.length, 1));
      }
    }
    assert.deepEqual(find(index, "valueOf").groups, []);
  });

  test("of drill files that are on no list are no kinds of the station", () => {
    assert.equal(itemWords(drillLayer("kicad/nightlight-PTH.drl", NAMES.map((name) => `${name} 1 0 0`), tool(1, 0.8)), 0, { unit: "mm" }), null);
  });
});

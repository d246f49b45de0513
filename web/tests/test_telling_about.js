// About a board: its sides, its copper, its holes, who wrote it and when, and what its job file says.

import assert from "node:assert/strict";
import { part, suite, test } from "../../tools/tests/harness.js";
import { aperture, drillLayer, example, layer, layerOfText, nightlightOutline, nightlightPlated, nightlightTop, nightlightUnplated,
  tool } from "./telling.js";
import { aboutBoard, textOf } from "../telling/about.js";
import { dateWords, datesWords, programWords } from "../telling/makers.js";
import { fileSays } from "../telling/files.js";
import { holesOf } from "../telling/holes.js";
import { missingFiles, readJob } from "../telling/job.js";
import { outlineBox } from "../telling/outline_box.js";
import { latin1Bytes } from "../bytes/index.js";

const text = new TextEncoder();
const nightlight = () => [nightlightTop(), nightlightOutline(), nightlightPlated(), nightlightUnplated()];
const rowsOf = (layers, options = {}) => aboutBoard(layers, { unit: "mm", ...options }).rows;
// The values of the rows of a name.
const values = (rows, name) => rows.filter(([row]) => row === name).map(([, value]) => value);

suite("a board of KiCad", () => {
  test("is told by its files", () => {
    assert.deepEqual(rowsOf(nightlight()), [
      ["sides", "30.00 by 20.00 mm, along the middle of the outline's lines"],
      ["outline", "outline, from 100.000, -100.000 to 130.000, -80.000 mm"],
      ["copper layers", "1: top copper"],
      ["missing copper layers", "L2 of 2"],
      ["layers", "4"], ["items", "51"],
      ["holes", "10"], ["slots", "1"], ["smallest hole", "0.40 mm, plated"], ["largest hole", "2.20 mm, not plated"],
      ["0.40 mm, plated", "4 holes: via"], ["0.80 mm, plated", "2 holes: lead of a component"], ["1.00 mm, plated", "2 holes: lead of a component"],
      ["1.20 mm, not plated", "1 slot: lead of a component"], ["2.20 mm, not plated", "2 holes: lead of a component"],
      ["project", "nightlight, revision 1.0"], ["written by", "KiCad Pcbnew 8.0.4"], ["written", "2024-09-02 20:14:31 +02:00"],
    ]);
  });

  test("is told as text to copy", () => {
    const copied = textOf(aboutBoard([nightlightOutline()], { unit: "mm" }));
    assert.equal(copied, "sides:         30.00 by 20.00 mm, along the middle of the outline's lines\n"
      + "outline:       outline, from 100.000, -100.000 to 130.000, -80.000 mm\ncopper layers: none\nlayers:        1\nitems:         8\n"
      + "holes:         0\nproject:       nightlight, revision 1.0\nwritten by:    KiCad Pcbnew 8.0.4\nwritten:       2024-09-02 20:14:31 +02:00\n");
  });

  test("of four layers has its inner copper, and its dates from the first to the last", () => {
    const copper = (name, shows, label) => layerOfText(example(`four_layers/thermometer-${name}.gbr`), [], { shows, label, name: shows });
    const rows = rowsOf([copper("B_Cu", "bottom", "bottom copper"), copper("In2_Cu", "in2", "inner copper 2"), copper("F_Cu", "top", "top copper"),
      copper("In1_Cu", "in1", "inner copper 1"), copper("Edge_Cuts", "outline", "outline"), drillLayer("four_layers/thermometer-PTH.drl", [], tool(1, 0.3))]);
    assert.deepEqual(values(rows, "copper layers"), ["4: top copper, inner copper 1, inner copper 2, bottom copper"]);
    assert.deepEqual(values(rows, "missing copper layers"), []);
    assert.deepEqual(values(rows, "sides"), ["40.00 by 30.00 mm, along the middle of the outline's lines"]);
    assert.deepEqual(values(rows, "written"), ["from 2024-10-12 15:40:02 +02:00 to 2024-10-12 15:40:04 +02:00"]);
  });

  test("is told in inches too", () => {
    // 30 mm are 1.18110236.. in, 20 mm 0.78740157.. in, 0.4 mm 0.01574803.. in
    const rows = rowsOf(nightlight(), { unit: "in" });
    assert.match(values(rows, "sides")[0], /^1\.18110236 by 0\.78740157 in,/);
    assert.deepEqual(values(rows, "smallest hole"), ["0.01574803 in, plated"]);
  });
});

suite("the outline", () => {
  const PEN = aperture(10, "C,0.500000");
  const sides = (items, entries = PEN) => {
    const { box } = outlineBox([layer({ shows: "outline", items, entries })]);
    return box && [box.right - box.left, box.high - box.low];
  };

  test("is measured along the middle of its lines, of any pen", () => {
    assert.deepEqual(sides(["draw 10 0 0 5000000 0 r0 dark", "draw 10 5000000 0 5000000 3000000 r0 dark"]), [5000000, 3000000]);
    // half of a circle of 2 mm, which reaches down
    assert.deepEqual(sides(["arc 10 -2000000 0 2000000 0 0 0 ccw dark"]), [4000000, 2000000]);
    assert.deepEqual(sides(["region dark 0 0 l 7000000 0 l 0 1000000 l 0 0"]), [7000000, 1000000]);
  });

  test("has the copies of a repeat and the objects of blocks, as they lie", () => {
    assert.deepEqual(sides(["repeat 3 2 10000000 20000000 1", "  draw 10 0 0 1000000 0 r0 dark"]), [21000000, 20000000]);
    const entries = [...PEN, "block 12 1", "  draw 10 0 0 1000000 500000 r0 dark", "block 13 1", "  flash 12 0 0 r90 dark"];
    assert.deepEqual(sides(["flash 12 0 0 r0 dark"], entries), [1000000, 500000]);
    assert.deepEqual(sides(["flash 13 0 0 r0 dark"], entries), [500000, 1000000]);
    const { box } = outlineBox([layer({ shows: "outline", items: ["flash 12 100 200 m0 dark"], entries })]);
    assert.deepEqual([box.left, box.low, box.right, box.high], [-999900, 200, 100, 500200]);
    // a quarter counterclockwise brings what lies to the right up, and what lies up to the left
    const { box: quarter } = outlineBox([layer({ shows: "outline", items: ["flash 12 100 200 r90 dark"], entries })]);
    assert.deepEqual([quarter.left, quarter.low, quarter.right, quarter.high], [-499900, 200, 100, 1000200]);
  });

  test("is no flash, nothing clear, and no other layer", () => {
    assert.equal(sides(["flash 10 0 0 r0 dark"]), null);
    assert.equal(sides(["draw 10 0 0 5000000 0 r0 clear"]), null);
    assert.deepEqual(values(rowsOf([layer({ items: ["draw 10 0 0 5000000 0 r0 dark"] })]), "sides"), ["not known: no layer is the outline"]);
    assert.deepEqual(values(rowsOf([layer({ shows: "outline" })]), "sides"), ["not known: the outline has no line"]);
  });
});

suite("holes", () => {
  const ENTRIES = [...tool(1, 0.5), ...tool(2, 0.5), ...tool(3, 0.300001)];
  const drill = (items, parts) => layer({ kind: "drill", shows: "plated", items, entries: ENTRIES, ...parts });
  const brief = (layers) => holesOf(layers).map(({ diameter, isPlated, holes, slots }) => [diameter, isPlated, holes, slots]);

  test("are counted by size and plating, the smallest first", () => {
    assert.deepEqual(brief([drill(["hit 1 0 0", "hit 2 0 0", "hit 3 0 0", "rout 1 0 0 1 1", "rout 1 0 0"]),
      drill(["hit 1 0 0"], { shows: "nonplated" }), drill(["hit 1 0 0"], { shows: "holes" })]),
    [[300001, true, 1, 0], [500000, true, 3, 1], [500000, false, 1, 0], [500000, null, 1, 0]]);
  });

  test("of a tool that drills nothing are not told", () => {
    assert.deepEqual(brief([drill([])]), []);
    assert.deepEqual(values(rowsOf([drill([])]), "holes"), ["0"]);
    assert.deepEqual(values(rowsOf([drill([])]), "smallest hole"), []);
  });

  test("of slots alone have no smallest one", () => {
    const rows = rowsOf([drill(["rout 1 0 0 1 1"])]);
    assert.deepEqual([values(rows, "holes"), values(rows, "slots"), values(rows, "smallest hole")], [["0"], ["1"], []]);
  });

  test("of Gerber files count with their repeats and blocks", () => {
    const entries = [...aperture(10, "C,0.600000"), ...aperture(11, "O,0.600000X1.000000"), ...aperture(13, "R,0.600000X1.000000"), ...aperture(14, "O,0.700000X0.700000"),
      "block 12 2", "  flash 10 0 0 r0 dark", "  draw 10 0 0 1000000 0 r0 dark"];
    const items = ["flash 10 0 0 r0 dark", "flash 11 0 0 r0 dark", "flash 13 0 0 r0 dark", "flash 10 0 0 r0 clear", "draw 10 0 0 0 0 r0 dark",
      "repeat 3 2 10000000 10000000 2", "  flash 10 0 0 r0 dark", "  flash 12 0 0 r0 dark", "flash 12 0 0 r0 dark", "flash 14 0 0 r0 dark"];
    // 1 and 1 as a draw of no length, 12 in the repeat, 1 in the block; slots: the obround, 6 in the repeat, 1 in the block
    assert.deepEqual(brief([layer({ shows: "plated", items, entries })]), [[600000, true, 15, 8], [700000, true, 1, 0]]);
  });
});

suite("who wrote files, and when", () => {
  const drill = (header) => layer({ kind: "drill", shows: "plated", says: fileSays("drill", latin1Bytes(`M48\n${header}METRIC\nT1C0.5\n%\n; no header\nM30\n`)) });

  test("is told by attributes, else by comments of the header", () => {
    const rows = rowsOf([drill("; DRILL file {KiCad 5.1.9} date Mon 02 Sep 2024 08:14:31 PM CEST\n; FORMAT={-:-/ absolute / metric / decimal}\n;Layer_Color=9474304\n"),
      drill("; #@! TF.GenerationSoftware,KiCad,Pcbnew,8.0.4\n; #@! TF.CreationDate,2024-09-02T20:14:31+02:00\n; DRILL file {KiCad 5} date x\n"),
      drill("; Generated by EAGLE CAM Processor 9.6.2\n")]);
    assert.deepEqual(values(rows, "written by"), ["KiCad 5.1.9 (1 file)", "KiCad Pcbnew 8.0.4 (1 file)", "EAGLE CAM Processor 9.6.2 (1 file)"]);
    assert.deepEqual(values(rows, "written"), ["Mon 02 Sep 2024 08:14:31 PM CEST; 2024-09-02 20:14:31 +02:00"]);
    assert.deepEqual(values(rows, "drill file says"), ["Layer_Color=9474304"]);
    const gerber = layerOfText("G04 Created by KiCad (PCBNEW 8.0.4) date 2024-09-02 20:14:31*\n%FSLAX46Y46*%\n%MOMM*%\nM02*\n", []);
    assert.deepEqual(rowsOf([gerber]).slice(-2), [["written by", "KiCad (PCBNEW 8.0.4)"], ["written", "2024-09-02 20:14:31"]]);
    assert.deepEqual(values(rowsOf([drill("")]), "written by"), []);
  });

  test("reads attributes in comments of Gerber files", () => {
    const gerber = layerOfText("G04 #@! TF.GenerationSoftware,KiCad,Pcbnew,8\\u002e0*\n%FSLAX46Y46*%\n%MOMM*%\nM02*\n", []);
    assert.deepEqual(values(rowsOf([gerber]), "written by"), ["KiCad Pcbnew 8.0"]);
    // a command counts before a comment
    const both = layerOfText("G04 #@! TF.GenerationSoftware,KiCad,Pcbnew,8*\n%FSLAX46Y46*%\n%MOMM*%\n%TF.GenerationSoftware,Horizon,,2*%\nM02*\n", []);
    assert.deepEqual(values(rowsOf([both]), "written by"), ["Horizon 2"]);
  });

  test("dates are the same where their instants are", () => {
    assert.equal(dateWords("2024-09-02T20:14:31+0200"), "2024-09-02 20:14:31 +02:00");
    assert.equal(dateWords("2024-09-02T18:14:31Z"), "2024-09-02 18:14:31 UTC");
    assert.equal(dateWords("2024-09-02"), "2024-09-02");
    assert.equal(datesWords([null]), null);
    assert.equal(datesWords(["2024-09-02 20:14:31 +02:00", "2024-09-02 18:14:31 UTC"]), "2024-09-02 20:14:31 +02:00");
    // the later one in the text is the earlier one
    assert.equal(datesWords(["2024-09-02 20:14:31 +02:00", null, "2024-09-02 19:00:00 -01:00"]),
      "from 2024-09-02 20:14:31 +02:00 to 2024-09-02 19:00:00 -01:00");
    assert.equal(datesWords(["2024-09-02 20:14:31", "yesterday"]), "2024-09-02 20:14:31; yesterday");
  });

  test("programs are told without words that stand twice", () => {
    assert.equal(programWords(["Altium Limited", "Altium Designer", "23.1.1"]), "Altium Limited Designer 23.1.1");
    assert.equal(programWords(["KICAD", "KiCad", "8"]), "KICAD 8");
    assert.equal(programWords(["", null, undefined]), null);
  });
});

// As KiCad writes it, with Ucamco's names.
const JOB = {
  Header: { GenerationSoftware: { Vendor: "KiCad", Application: "Pcbnew", Version: "8.0.4" }, CreationDate: "2024-09-02T20:14:31+02:00" },
  GeneralSpecs: { ProjectId: { Name: "nightlight", GUID: "6e69", Revision: "1.0" }, Size: { X: 30.1, Y: 20.1 }, LayerNumber: 2, BoardThickness: 1.6,
    Finish: "ENIG" },
  DesignRules: [{ Layers: "Outer", PadToPad: 0.2 }],
  FilesAttributes: [{ Path: "nightlight-F_Cu.gbr", FileFunction: "Copper,L1,Top", FilePolarity: "Positive" },
    { Path: "nightlight-B_Cu.gbr", FileFunction: "Copper,L2,Bot", FilePolarity: "Positive" }, { Path: "gerbers\\NIGHTLIGHT-edge_cuts.gbr", FileFunction: "Profile" },
    { Path: "nightlight-F_Paste.gbr", FileFunction: "SolderPaste,Top" }],
  MaterialStackup: [{ Type: "Legend", Color: "White", Name: "Top Silk Screen" }, { Type: "SolderMask", Thickness: 0.01, Color: "Green", Name: "Top Solder Mask" },
    { Type: "Copper", Thickness: 0.035, Name: "F.Cu" }, { Type: "Dielectric", Thickness: 1.51, Material: "FR4", Name: "F.Cu/B.Cu" },
    { Type: "SolderMask", Thickness: 0.01, Color: "Green", Name: "Bottom Solder Mask" }],
};
const jobFile = (value) => ({ name: "nightlight.gbrjob", bytes: text.encode(typeof value === "string" ? value : JSON.stringify(value)) });

suite("a job file", () => {
  test("tells material, finish, thickness and files that are missing", () => {
    const rows = rowsOf(nightlight(), { job: jobFile(JOB), fileNames: ["readme.txt"] });
    assert.deepEqual(rows.filter(([name]) => name.startsWith("job file")), [
      ["job file: project", "nightlight, revision 1.0"], ["job file: sides", "30.10 by 20.10 mm"], ["job file: copper layers", "2"],
      ["job file: material", "FR4"], ["job file: finish", "ENIG"], ["job file: thickness", "1.60 mm"], ["job file: colour of silkscreen", "White"],
      ["job file: colour of solder mask", "Green"], ["job file: written by", "KiCad Pcbnew 8.0.4"], ["job file: written", "2024-09-02 20:14:31 +02:00"],
      ["job file: missing file", "nightlight-B_Cu.gbr (bottom copper)"], ["job file: missing file", "nightlight-F_Paste.gbr (top paste)"]]);
    assert.deepEqual(missingFiles(readJob(jobFile(JOB).bytes).job, ["a/nightlight-f_cu.gbr", "NIGHTLIGHT-B_CU.GBR", "nightlight-F_Paste.gbr",
      "nightlight-Edge_Cuts.gbr"]), []);
  });

  test("that names more copper than is there is told with what is missing", () => {
    const rows = rowsOf([nightlightTop()], { job: jobFile({ ...JOB, GeneralSpecs: { LayerNumber: 4 } }) });
    assert.deepEqual(values(rows, "missing copper layers"), ["L2, L3, L4 of 4"]);
  });

  test("of any JSON is read, and says nothing that it does not have", () => {
    const none = { program: null, date: null, project: null, sides: null, copper: null, thickness: null, finish: null, materials: [], colours: [], files: [] };
    for (const value of [{ Header: null }, { GeneralSpecs: [] }, { GeneralSpecs: { Size: { X: "30", Y: 20 }, LayerNumber: "2", BoardThickness: -1, Finish: {} } },
      { FilesAttributes: {} }, { FilesAttributes: [null, 7, [], { Path: 0.5e999 }], MaterialStackup: [{ Type: "Dielectric" }, 1] },
      { Header: { GenerationSoftware: "KiCad", CreationDate: [] } }, { Header: {}, ["__proto__"]: { GeneralSpecs: 1 } }]) {
      part(JSON.stringify(value), () => assert.deepEqual(readJob(jobFile(value).bytes), { job: none, why: null }));
    }
    const { job } = readJob(new Uint8Array([0xef, 0xbb, 0xbf, ...jobFile(JOB).bytes]));
    assert.equal(job.finish, "ENIG");
  });

  test("that is none is told with the reason", () => {
    for (const value of ["", "{", "[]", "7", "null", "{\"a\":1}", "\u0000"]) {
      part(value, () => {
        const { job, why } = readJob(jobFile(value).bytes);
        assert.equal(job, null);
        assert.match(why, /^it is no JSON: |^it has no part of a job file$/);
      });
    }
    assert.match(values(rowsOf([], { job: jobFile("[]") }), "job file")[0], /^nightlight\.gbrjob is not read: it has no part of a job file$/);
  });
});

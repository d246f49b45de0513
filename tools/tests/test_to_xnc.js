// tools/to_xnc: one board in the forms of many programs becomes one layer, and what cannot be written is refused.

import assert from "node:assert/strict";
import { copyFileSync, existsSync, readFileSync, readdirSync, writeFileSync } from "node:fs";
import { join } from "node:path";
import { convertDrill } from "../../web/convert/drill/convert.js";
import { Drilling } from "../../web/convert/drill/drilling.js";
import { decimalOf, lengthOf, lengthText, micrometres, quickReader, sizeOf } from "../../web/convert/drill/lengths.js";
import { latin1, latin1Bytes } from "../../web/bytes/text.js";
import { part, skip, suite, test } from "./harness.js";
import { CASES, PROGRAM, newRoom, runProgram, runTool, withoutLoaded } from "./support.js";

/** @typedef {import("../../web/convert/drill/lengths.js").Zeros} Zeros */

const FOLDER = join(CASES, "drill");
const FORMS = JSON.parse(readFileSync(join(CASES, "drill_forms.json"), "utf8"));
const REFUSALS = JSON.parse(readFileSync(join(CASES, "drill_refusals.json"), "utf8"));

const BOARD = `M48
METRIC
T1C0.812800
T2C1.016000
T3C0.889000
%
G05
T1
X12.700000Y12.700000
X25.400000Y12.700000
X31.750000Y19.050000
T2
X1.270000Y25.400000
X-6.350000Y19.050000
X50.800000Y0.000000
T3
G00X12.700000Y31.750000
M15
G01X19.050000Y31.750000
M16
M30
`;
// What a form is read to, as camplot writes it.
const LAYERS = {
  board: BOARD,
  "hits alone": BOARD.replace(/T3C.*\n/, "").replace(/T3\n[^]*(?=M30)/, ""),
  "tools 101 to 103": BOARD.replace(/T([123])/g, "T10$1"),
  "no holes": "M48\nMETRIC\n%\nG05\nM30\n",
};

// The lines of XNC without comments, each length in mm with six decimals.
function canonicalOf(text) {
  const isInch = text.split("\n").includes("INCH");
  return text.replace("INCH\n", "METRIC\n").split("\n").filter((line) => !line.startsWith(";"))
    .map((line) => line.replace(/([XYC])(-?\d+\.\d+)/g, (_, letter, number) => {
      const nm = sizeOf(number.replace("-", ""), isInch ? "inch" : "mm", "mm") / 1000;
      return `${letter}${number.startsWith("-") && nm ? "-" : ""}${(nm / 1e6).toFixed(6)}`;
    })).join("\n");
}

// A room with all files of the cases, and the text that the tool writes there of one of them.
function converted({ file, options }) {
  const room = newRoom();
  for (const name of readdirSync(FOLDER)) copyFileSync(join(FOLDER, name), join(room, name));
  const { status, stderr } = runTool("to_xnc", [file, "-o", "out.xnc", ...options], room);
  assert.deepEqual([status, stderr], [0, ""]);
  return { room, text: readFileSync(join(room, "out.xnc"), "latin1") };
}

function runOn(room, text, ...words) {
  writeFileSync(join(room, "holes.drl"), text);
  return runTool("to_xnc", ["holes.drl", ...words], room);
}

// The program loads what was written as the layer that is wanted, with the same picture.
function checkLoads(room, wanted) {
  const items = (wanted.match(/^X|^G00/gm) ?? []).length;
  writeFileSync(join(room, "wanted.xnc"), wanted);
  writeFileSync(join(room, "script"), "load a drill out.xnc\nload b drill wanted.xnc\n"
    + "window -10000000 -3000000 50000 1280 800\nwrite a a.xnc\nplot a a.pbm\nplot b b.pbm\n");
  const { status, stdout } = runProgram(PROGRAM, ["script"], room);
  assert.deepEqual(stdout.split("\n").slice(0, 3), [`ok ${items}`, `ok ${items}`, "ok"]);
  assert.equal(status, 0);
  assert.equal(readFileSync(join(room, "a.xnc"), "utf8"), wanted);
  const picture = readFileSync(join(room, "a.pbm"));
  assert.ok(picture.equals(readFileSync(join(room, "b.pbm"))));
  assert.equal(picture.subarray("P4\n1280 800\n".length).some((byte) => byte), items > 0);
}

suite("forms", () => {
  for (const form of FORMS) {
    test(`${form.file} is the board`, () => {
      assert.equal(canonicalOf(converted(form).text), LAYERS[form.layer]);
    });
    test(`${form.file} loads`, () => {
      const { room } = converted(form);
      if (!existsSync(PROGRAM)) skip("the program is not built");
      checkLoads(room, LAYERS[form.layer]);
    });
  }
});

suite("refusals", () => {
  for (const { name, text, options, told } of REFUSALS) {
    test(`${name} is refused`, () => {
      const room = newRoom(), { status, stderr } = runOn(room, text, ...options);
      assert.equal(status, 1);
      assert.ok(stderr.includes(`holes.drl: ${told}`), stderr);
      assert.ok(stderr.endsWith("to_xnc: nothing was written\n"), stderr);
      assert.deepEqual(readdirSync(room), ["holes.drl"]);
    });
  }
});

suite("account", () => {
  test("tells what it took from where, and counts", () => {
    const { status, stdout, stderr } = runOn(newRoom(),
      "M48\n;FILE_FORMAT=2:4\nINCH,TZ\nT1F00S00C0.0320\nT2C0.0400\n%\nT1\nX5000Y5000\nX10000\nT2\n"
      + "X5000Y12500G85X7500Y12500\nG00X0Y0\nM15\nG01X5000\nM17\nM00\n");
    assert.deepEqual([status, stderr], [0, ""]);
    assert.equal(withoutLoaded(stdout), `unit: inch (INCH,TZ on line 3)
digits: 2:4 (FILE_FORMAT=2:4 in the comment on line 2)
zeros: trailing ones are written, leading ones left out (INCH,TZ on line 3)
line 2: the comment on digits and zeros is left out
line 3: INCH,TZ is written as INCH, at the front
line 4: feeds, speeds and hit limits of tools are left out
line 15: M17 is written as M16
line 16: M00 is written as M30
tools: 2 read, 2 written
hits: 2 read, 2 written
slots: 2 (1 by G85, 1 by M15) read, 2 written
centres: X 0.0 to 25.4, Y 0.0 to 31.75 mm
written: holes.xnc
`);
  });

  test("looks where zeros or counts do not fit", () => {
    const { stdout } = runOn(newRoom(), "M48\nINCH,LZ\n; T01 Holesize 1. = 32.0 Tolerance = +0/-0 PLATED MILS Quantity = 3\n%\n"
      + "T1\nX0500Y05\nX05Y05\nM30\n");
    assert.ok(stdout.includes("LOOK: 0500 on line 6 has a zero that such a file leaves out\n"), stdout);
    assert.ok(stdout.includes("LOOK: T1 makes 2 holes here, and 3 by the comment on line 3\n"), stdout);
    assert.ok(stdout.includes("line 5: the diameter of T1 is from the comment on line 3\n"), stdout);
  });

  test("does not look at zeros that such a file has", () => {
    const { status, stdout } = runOn(newRoom(), "M48\nINCH,LZ\nT1C0.032\n%\nT1\nX10Y0125\nX012500Y1\nM30\n");
    assert.deepEqual([status, stdout.includes("LOOK")], [0, false], stdout);
    assert.ok(stdout.includes("centres: X 31.75 to 254.0, Y 31.75 to 254.0 mm"), stdout);
  });

  test("settings that move no hole are left out, each told with its line", () => {
    const room = newRoom();
    const words = ["VER,1", "FMAT,2", "DETECT,ON", "ICI,OFF", "R,CP", "OM48", "M45,A TEXT", "PPR,1.5", "M47"];
    const codes = ["G90", "G40", "M06", "M09", "G04X5", "G93X0Y0", "(a comment)", "T1M06"];
    const text = ["M48", "METRIC,TZ", "T1C0.8", ...words, "%", "T1", ...codes, "X1000Y-1000", "M30"].join("\r\n");
    const { status, stdout } = runOn(room, text);
    assert.equal(status, 0);
    words.forEach((word, at) => {
      assert.ok(stdout.includes(`line ${4 + at}: ${word.replace(" ", "")} is left out: it moves no hole\n`), word);
    });
    assert.equal(readFileSync(join(room, "holes.xnc"), "utf8"), "M48\nMETRIC\nT1C0.8\n%\nG05\nT1\nX1.0Y-1.0\nM30\n");
  });

  test("an option goes before the file", () => {
    const room = newRoom(), text = "M48\nINCH,TZ,00.0000\nT1C0.032\n%\nT1\nX1000Y1000\nM30\n";
    assert.equal(runOn(room, text, "--digits", "2:3", "--tool", "1=40mil").status, 0);
    assert.equal(readFileSync(join(room, "holes.xnc"), "utf8"), "M48\nINCH\nT1C0.04\n%\nG05\nT1\nX1.0Y1.0\nM30\n");
  });

  test("a first line and a last one count as others do", () => {
    const room = newRoom();
    assert.equal(runOn(room, "INCH,LZ\nT1C0.032\n%\nT1\nX01Y01\nM30").status, 0);
    assert.equal(readFileSync(join(room, "holes.xnc"), "utf8"), "M48\nINCH\nT1C0.032\n%\nG05\nT1\nX1.0Y1.0\nM30\n");
  });

  test("a tool 0 gets another number", () => {
    const room = newRoom();
    const { status, stdout } = runOn(room, "M48\nMETRIC,TZ\nT0C0.4\nT3C0.8\nR,H\n/\n%\nT0\nX1000Y1000\nT3\nX2000Y1\nM30\n");
    assert.equal(status, 0);
    assert.ok(stdout.includes("lines 3 and 8: T0 is written as T4: in XNC T0 selects no tool\n"), stdout);
    assert.equal(readFileSync(join(room, "holes.xnc"), "utf8"),
      "M48\nMETRIC\nT4C0.4\nT3C0.8\n%\nG05\nT4\nX1.0Y1.0\nT3\nX2.0Y0.001\nM30\n");
  });

  test("keeps the comments of the header, byte for byte", () => {
    const room = newRoom(), attribute = "; #@! TA.AperFunction,Plated,PTH,ViaDrill\n";
    runOn(room, latin1Bytes(`; f\xefr\x80st\nM48\nMETRIC,TZ\n${attribute}T1C0.4\n%\nT1\nX1000Y1000\nM30\n`));
    assert.equal(readFileSync(join(room, "holes.xnc"), "latin1"),
      `M48\nMETRIC\n; f\xefr\x80st\n${attribute}T1C0.4\n%\nG05\nT1\nX1.0Y1.0\nM30\n`);
  });

  test("never writes over a file", () => {
    const room = newRoom();
    writeFileSync(join(room, "holes.xnc"), "mine");
    const { status, stderr } = runOn(room, "M30\n");
    assert.equal(status, 2);
    assert.equal(stderr, "tools/to_xnc: holes.xnc: exists already; --replace replaces it, -o names another\n");
    assert.equal(readFileSync(join(room, "holes.xnc"), "utf8"), "mine");
    assert.equal(runOn(room, "M30\n", "--force").status, 0);
    assert.equal(runOn(room, "M30\n", "--force", "-o", "holes.drl").status, 2);
    assert.equal(readFileSync(join(room, "holes.drl"), "utf8"), "M30\n");
  });

  test("calls that cannot be used", () => {
    for (const [words, told] of /** @type {[string[], string][]} */ ([
      [["--digits", "24"], "--format 24: it needs two digits, as 2.4"], [["--tool", "1"], "--tool 1"],
      [["--tool", "5=0.8"], "--tool 5: the file has no tool of this number"], [["--report", "none"], "none: cannot be read"],
      [["--tool", "1=300"], "a diameter outside 1 nm to 200 mm"], [["-o", "no/out"], "no/out: cannot"],
      [["--report", "holes.drl"], "holes.drl: no report of"], [["--unit", "mil"], "--unit"], [["--unit"], "--unit needs mm|inch"],
      [["more"], "more: cannot be read"], [["--none"], "--none is no option"], [["--unti", "mm"], "did you mean --unit?"]])) {
      part(words.join(" "), () => {
        const { status, stderr } = runOn(newRoom(), "M48\nMETRIC,TZ\nT1C0.8\n%\nT1\nX1000Y1000\nM30\n", ...words);
        assert.equal(status, 2);
        assert.ok(stderr.includes(told), stderr);
      });
    }
  });

  test("words that are written in other ways", () => {
    const room = newRoom(), text = "M48\nT1C0.8\n%\nT1\nX1000Y1000\nM30\n";
    assert.equal(runOn(room, text, "--uni=mm", "--zer", "trailing", "-oout.xnc").status, 0);
    assert.ok(existsSync(join(room, "out.xnc")));
    assert.ok(runTool("to_xnc", ["--help"]).stdout.includes("--zeros leading|trailing"));
  });
});

suite("drillings", () => {
  const drilling = (unit, diameter, act) => {
    const made = new Drilling(unit);
    made.diameters.set(1, diameter);
    act(made);
    return made;
  };
  const slot = (made) => made.rout(1, [[0, 0], [1, 0]]);

  test("are the same where all is", () => {
    const one = drilling("mm", 5, slot);
    assert.ok(one.isSame(drilling("mm", 5, slot)));
    for (const other of [drilling("inch", 5, slot), drilling("mm", 6, slot), drilling("mm", 5, () => {}),
      drilling("mm", 5, (made) => made.rout(1, [[0, 0], [1, 1]])), drilling("mm", 5, (made) => made.rout(2, [[0, 0], [1, 0]])),
      drilling("mm", 5, (made) => {
        made.hit(1, 0, 0);
        made.hit(1, 1, 0);
      })]) {
      assert.ok(!one.isSame(other));
    }
    assert.deepEqual([one.hits, one.routs], [0, 1]);
  });

  test("begin at (0, 0)", () => {
    const { bytes } = convertDrill(latin1Bytes("M48\nMETRIC,TZ\nT1C0.8\n%\nT1\nX1000\nY2000\nM30\n"));
    assert.equal(latin1(bytes), "M48\nMETRIC\nT1C0.8\n%\nG05\nT1\nX1.0Y0.0\nX1.0Y2.0\nM30\n");
  });

  test("leave out what stands at a file's ends", () => {
    for (const [text, told] of /** @type {[string, string[]][]} */ ([
      ["\0\0M30\n", ["zero bytes or Ctrl-Z at the file's ends are left out"]],
      ["M30\n\x1a", ["zero bytes or Ctrl-Z at the file's ends are left out"]], ["M30\n", []],
      ["\xef\xbb\xbfM30\n", ["a byte order mark is left out"]]])) {
      assert.deepEqual(convertDrill(latin1Bytes(text)).changes.map(({ what }) => what), told, JSON.stringify(text));
    }
  });
});

suite("lengths", () => {
  test("are exact, whichever way they are read", () => {
    const digits = { whole: 2, decimals: 4 };
    for (const [text, zeros, wanted] of /** @type {[string, Zeros | null, string][]} */ ([
      ["0145", "leading", "1.45"], ["0145", "trailing", "0.0145"], ["1", "leading", "10.0"],
      ["-25", "both", "-0.0025"], ["+.5", null, "0.5"], ["7.", null, "7.0"], ["0", null, "0.0"], ["-0.0", null, "0.0"],
      ["999999.999999999", null, "999999.999999999"], ["1.0000000000000", null, "1.0"], ["00000000000000001.5", null, "1.5"]])) {
      part(`${text} ${zeros}`, () => {
        const places = zeros && digits;
        assert.equal(lengthText(lengthOf(text, places, zeros)), wanted);
        assert.equal(decimalOf(text, places, zeros), wanted);
        const quick = quickReader(places, zeros)(`X${text}Y`, 1, 1 + text.length);
        if (!Number.isNaN(quick)) assert.equal(lengthText(quick), wanted);
      });
    }
    assert.equal(lengthOf("1000000", digits, null ?? "trailing"), 100e9);
    assert.equal(lengthOf("-1234567.0", null, null), -Infinity);
    assert.throws(() => lengthOf("145", digits, null), /no point/);
    for (const text of ["", "-", ".", "1.2.3", "1e3", "145"]) assert.throws(() => lengthOf(text, null, null), /no number|no point/);
    assert.throws(() => lengthOf("0.0000000001", null, null), /more than the 9 decimals/);
  });

  test("change their unit exactly, or not at all", () => {
    assert.equal(lengthText(sizeOf("32.000000", "MILS", "mm")), "0.8128");
    assert.equal(lengthText(sizeOf("12", "mil", "inch")), "0.012");
    assert.equal(lengthText(sizeOf("1.27", "mm", "inch")), "0.05");
    assert.equal(lengthText(sizeOf("800", "microns", "mm")), "0.8");
    assert.throws(() => sizeOf("0.8", "mm", "inch"), /has no exact decimals in inch/);
    assert.deepEqual([micrometres(1e9, "inch"), micrometres(-1500000, "mm"), micrometres(2500500, "mm")],
      ["25.4", "-0.002", "0.003"]);
  });
});

suite("large and hostile files", () => {
  test("a long line is refused at once", () => {
    for (const line of [`X${"1".repeat(1_000_000)}!`, "X1".repeat(300_000) + "!", `;Holesize 1 = ${"1.".repeat(500_000)}`,
      `M45,${"1".repeat(1_000_000)}!`, `X1.${"0".repeat(1_000_000)}1Y1`, `T2C${"1".repeat(1_000_000)}.1.1`, `;FORMAT={3:3/ absolute / metric /${" ".repeat(1_000_000)}`]) {
      const started = Date.now();
      convertDrill(latin1Bytes(`M48\nMETRIC,TZ\nT1C0.8\n%\nT1\n${line}\nM30\n`));
      assert.ok(Date.now() - started < 5000, line.slice(0, 20));
    }
    const report = { name: "r", bytes: latin1Bytes("FORMAT 2.4\n".padEnd(1_000_000, "\n")) };
    assert.ok(convertDrill(latin1Bytes("M30\n"), { report }).bytes);
    const dri = { name: "r", bytes: latin1Bytes(`Units: 1/100000 inch\nT1 ${"1".repeat(1_000_000)}.1.1 inch 3\n`) };
    assert.ok(convertDrill(latin1Bytes("T1\nX1Y1\nM30\n"), { report: dri }).refusals.length);
  });

  test("a million lines", () => {
    const lines = ["M48", "METRIC,TZ", "T1C0.8", "%", "T1"];
    for (let at = 0; at < 1_000_000; at++) lines.push(`X${at * 37 % 250000}Y${at * 91 % 199999}`);
    const started = Date.now(), { bytes, account } = convertDrill(latin1Bytes([...lines, "M30\n"].join("\n")));
    assert.ok(account.includes("hits: 1000000 read, 1000000 written"));
    assert.ok(latin1(bytes.subarray(0, 60)).startsWith("M48\nMETRIC\nT1C0.8\n%\nG05\nT1\nX0.0Y0.0\nX0.037Y0.091\n"));
    assert.ok(Date.now() - started < 30_000);
  });
});

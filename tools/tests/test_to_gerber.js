// tools/to_gerber: one board in old forms becomes one layer, each new form its text and its report, and what cannot be
// written is refused.

import assert from "node:assert/strict";
import { copyFileSync, existsSync, readFileSync, readdirSync, writeFileSync } from "node:fs";
import { join } from "node:path";
import { part, skip, suite, test } from "./harness.js";
import { ADVICE, CASES, PROGRAM, REPOSITORY, newRoom, runProgram, runTool, withoutLoaded } from "./support.js";

const rows = (name) => JSON.parse(readFileSync(join(CASES, name), "utf8"));
const LAYERS = join(CASES, "gerber_layers");
const NEW_FORMS = join(CASES, "to_gerber");
const HEAD = "%FSLAX24Y24*%\n%MOIN*%\n%ADD10C,0.05*%\nD10*\n";
const WINDOW = "window -5000000 -5000000 50000 1000 500";
/** Its pixels' centres lie on no edge of the shapes. */
const PICTURE = "window -1999983 -1999977 20003 1200 700";

function runOn(room, text, words) {
  writeFileSync(join(room, "old.gbr"), text, "latin1");
  return runTool("to_gerber", ["old.gbr", ...words], room);
}

// What the tool makes of a text.
function made(text, ...words) {
  const room = newRoom();
  const { status, stderr } = runOn(room, text, ["-o", "new.gbr", "--force", ...words]);
  assert.deepEqual([status, stderr], [0, ""]);
  return readFileSync(join(room, "new.gbr"), "latin1");
}

function becomes(old, text, ...words) {
  part(old, () => assert.equal(made(`${HEAD}${old}M02*\n`, ...words), `${HEAD}${text}M02*\n`));
}

// A file that was written is written again as it stands.
function needsNothingMore(room) {
  const { stdout } = runTool("to_gerber", ["new.gbr", "-o", "newer.gbr"], room);
  assert.equal(stdout.split("\n")[0], "nothing was changed");
  assert.deepEqual(readFileSync(join(room, "newer.gbr")), readFileSync(join(room, "new.gbr")));
}

// What camplot writes of the file that was written.
function loaded(room) {
  if (!existsSync(PROGRAM)) skip("the program is not built");
  writeFileSync(join(room, "script"), `load a gerber new.gbr\n${WINDOW}\nwrite a a.gbr\nplot a a.pbm\n`);
  const { status, stdout } = runProgram(PROGRAM, ["script"], room);
  assert.equal(status, 0, stdout);
  return readFileSync(join(room, "a.gbr"), "latin1").replace(/^%TF.*\n/gm, "");
}

suite("forms", () => {
  for (const { file, options, layer } of rows("gerber_forms.json")) {
    const written = () => {
      const room = newRoom();
      copyFileSync(join(CASES, "old_gerber", file), join(room, file));
      const { status, stderr } = runTool("to_gerber", [file, "-o", "new.gbr", ...options], room);
      assert.deepEqual([status, stderr], [0, ""]);
      return room;
    };
    test(`${file} needs nothing more`, () => needsNothingMore(written()));
    test(`${file} loads`, () => assert.equal(loaded(written()), readFileSync(join(LAYERS, `${layer}.gbr`), "latin1")));
  }
});

suite("new forms", () => {
  for (const name of readdirSync(NEW_FORMS)) {
    const folder = join(NEW_FORMS, name);
    const options = readFileSync(join(folder, "options"), "utf8").split(/\s+/).filter((word) => word !== "");
    const written = () => {
      const room = newRoom();
      copyFileSync(join(folder, "file.gbr"), join(room, "file.gbr"));
      const { status, stdout, stderr } = runTool("to_gerber", ["file.gbr", "-o", "new.gbr", ...options], room);
      assert.deepEqual([status, stderr], [0, ""]);
      return { room, stdout };
    };
    test(`${name} is written and told`, () => {
      const { room, stdout } = written();
      assert.equal(readFileSync(join(room, "new.gbr"), "latin1"), readFileSync(join(folder, "new.gbr"), "latin1"));
      assert.equal(withoutLoaded(stdout), readFileSync(join(folder, "said"), "utf8"));
      needsNothingMore(room);
    });
    test(`${name} loads`, () => {
      const { room } = written();
      assert.notEqual(loaded(room), "");
    });
    if (options.length > 0) {
      test(`${name} is refused without its options, which the refusal names`, () => {
        const { status, stderr } = runOn(newRoom(), readFileSync(join(folder, "file.gbr"), "latin1"), []);
        assert.equal(status, 1);
        for (const word of options.filter((given) => given.startsWith("--"))) assert.ok(stderr.includes(word), stderr);
      });
    }
  }
});

suite("refusals", () => {
  for (const { name, text, options, said } of rows("gerber_refusals.json")) {
    test(name, () => {
      const room = newRoom();
      const { status, stderr } = runOn(room, text, options);
      assert.equal(status, 1);
      assert.ok(stderr.includes(said), stderr);
      assert.ok(stderr.startsWith("old.gbr: line "));
      for (const line of stderr.trimEnd().split("\n").slice(0, -1)) assert.match(line, ADVICE);
      assert.ok(stderr.endsWith("to_gerber: nothing was written\n"));
      assert.deepEqual(readdirSync(room), ["old.gbr"]);
    });
  }
});

suite("what camplot does not load", () => {
  const far = `${HEAD}N1X999999Y0D03*\nM02*\n`;

  test("is not written", () => {
    if (!existsSync(PROGRAM)) skip("the program is not built");
    const room = newRoom();
    const { status, stdout, stderr } = runOn(room, far, []);
    assert.deepEqual([status, stdout, readdirSync(room)], [1, "", ["old.gbr"]]);
    assert.match(stderr, /^line 5: line numbers \(N\) are left out\nold\.gbr: camplot does not load what was made of it: refused 23, out/);
    assert.match(stderr, /At line 5, column 1 \(byte 42\): X999999Y0D03\*\ntools\/to_gerber: nothing was written\n$/);
  });

  test("is told where nothing is there to load it", () => {
    const room = newRoom();
    const { status, stdout } = runOn(room, `${HEAD}X0Y0D03*\nM02*\n`, ["--camplot", join(room, "none")]);
    assert.equal(status, 0);
    assert.match(stdout, /^(camplot loads it: 1 items|not loaded: no program is built, and no module that this node reads)\nwritten: /m);
  });
});

suite("options", () => {
  test("that do not fit are refused", () => {
    const text = `${HEAD}X0Y0D03*\nM02*\n`;
    const listed = "; tools/to_gerber --help lists the options";
    for (const [words, why] of [[["--format", "24"], `--format 24: it needs two digits, as 2.4${listed}`],
      [["--format", "7.4"], `--format 7.4: it needs two digits, as 2.4${listed}`],
      [["--zeros", "leading"], `--zeros leading: it needs --format, as --format 2.4${listed}`],
      [["--format", "2.5"], "--format 2.5: the file has %FSLAX24Y24*% on line 1"],
      [["--format", "2.4", "--zeros", "leading"], "--format 2.4 --zeros leading: the file has %FSLAX24Y24*% on line 1"]]) {
      const { status, stderr } = runOn(newRoom(), text, words);
      assert.deepEqual([status, stderr], [2, `tools/to_gerber: ${why}\n`]);
    }
  });

  test("that the file already has change nothing", () => {
    const text = `${HEAD}X0Y0D03*\nM02*\n`;
    assert.equal(made(text, "--format", "2:4", "--zeros", "trailing", "--unit", "inch", "--arcs", "multi", "--repeat"), text);
  });
});

suite("texts", () => {
  test("what is read stays byte for byte", () => {
    const text = readFileSync(join(REPOSITORY, "examples", "blinker", "blinker-F_Cu.gbr"), "latin1");
    assert.equal(made(text), text);
    for (const { old } of rows("gerber_texts.json").filter((row) => row.made === undefined)) becomes(old, old);
  });

  test("commands and words", () => {
    for (const { old, made: text, options = [] } of rows("gerber_texts.json").filter((row) => row.made !== undefined)) {
      becomes(old, text, ...options);
    }
  });

  test("coordinates", () => {
    const rest = "%MOIN*%\n%ADD10C,0.05*%\nD10*\n";
    for (const [form, old, target, written] of [
      ["%FSTAX24Y24*%", "X01Y-0005", "%FSLAX24Y24*%", "X10000Y-500"],
      ["%FSTAX34Y34*%", "X0Y0123456", "%FSLAX34Y34*%", "X0Y123456"],
      ["%FSLAX23Y24*%", "X1Y1", "%FSLAX24Y24*%", "X10Y1"],
      ["%FSDAX24Y24*%", "X-.5Y+1.25", "%FSLAX24Y24*%", "X-5000Y12500"],
    ]) {
      part(form, () => assert.equal(made(`${form}\n${rest}${old}D03*\nM02*\n`), `${target}\n${rest}${written}D03*\nM02*\n`));
    }
    const room = newRoom();
    assert.equal(runOn(room, `%FSDAX24Y24*%\n${rest}X-.5Y1D03*\nM02*\n`, []).status, 1);
  });

  test("a unit stands before the first length", () => {
    const body = "%ADD10C,0.05*%\nD10*\nX0Y0D03*\nM02*\n";
    assert.equal(made(`%FSLAX24Y24*%\n${body}`, "--unit", "mm"), `%FSLAX24Y24*%\n%MOMM*%\n${body}`);
    const { status, stderr } = runOn(newRoom(), `%FSLAX24Y24*%\n%MOIN*%\n${body}`, ["--unit", "mm"]);
    assert.deepEqual([status, stderr], [2, "tools/to_gerber: --unit mm: the file has inch on line 2\n"]);
  });

  test("arcs of a file that does not tell their quadrants", () => {
    const arc = "X0Y0D02*\nG02X-1000Y1000I1000D01*\nX0D02*\nX5D1*\nM02*\n";
    assert.equal(runOn(newRoom(), HEAD + arc, ["--arcs", "single"]).status, 1);
  });

  test("never writes over a file", () => {
    const room = newRoom();
    writeFileSync(join(room, "old.gbr.gbr"), "mine");
    const { status, stderr } = runOn(room, `${HEAD}M02*\n`, []);
    assert.equal(status, 2);
    assert.ok(stderr.includes("old.gbr.gbr: exists already; --replace replaces it"));
    assert.equal(readFileSync(join(room, "old.gbr.gbr"), "utf8"), "mine");
    assert.equal(runOn(room, `${HEAD}M02*\n`, ["-o", "old.gbr", "--force"]).status, 2);
  });

  test("tells each change with its lines", () => {
    const text = "%FSLAN2X24Y24*MOIN*%\n%ICAS*%\n%ADD10C,0.05*%\nN1G54D10X0Y0D03*\nX1000*\nM00*\n";
    const { status, stdout, stderr } = runOn(newRoom(), text, ["--repeat"]);
    assert.deepEqual([status, stderr], [0, ""]);
    assert.equal(withoutLoaded(stdout), `line 1: several commands between two % are split, each with its own
line 1: %FSLAN2X24Y24*% is written as %FSLAX24Y24*%: it means the same
line 2: %ICAS*% is left out: it changes no image
line 4: line numbers (N) are left out
line 4: G54 is left out: the choice of an aperture means the same
line 4: several codes in one word are split
line 5: D03 is written again, where it was left out
line 6: M00 is written as M02
operations: 2 read and written, 2 flashes and 0 draws
written: old.gbr.gbr
`);
  });
});

// Each two of these texts are the same picture, one of them in a form that has to be written anew.
suite("pictures", () => {
  for (const { name, one, other } of rows("gerber_pairs.json")) {
    test(name, () => {
      if (!existsSync(PROGRAM)) skip("the program is not built");
      const room = newRoom();
      const pictures = [one, other].map((text, place) => {
        const { stderr } = runOn(room, text, ["--nearest", "-o", `${place}.gbr`]);
        assert.equal(stderr, "");
        writeFileSync(join(room, "script"), `load a gerber ${place}.gbr\n${PICTURE}\nplot a a.pbm\n`);
        const { stdout } = runProgram(PROGRAM, ["script"], room);
        assert.match(stdout, /^ok \d+\nok\nok \d+\n$/);
        return readFileSync(join(room, "a.pbm"));
      });
      assert.ok(pictures[0].some((byte, at) => at > 20 && byte !== 0));
      assert.deepEqual(pictures[0], pictures[1]);
    });
  }
});

suite("a board of parts at odd angles", () => {
  for (const [layer, items] of [["F_Cu", 34], ["F_Mask", 17]]) {
    test(`${layer} is refused, and loads by --nearest`, () => {
      if (!existsSync(PROGRAM)) skip("the program is not built");
      const room = newRoom();
      copyFileSync(join(REPOSITORY, "examples", "kicad_angles", `windrose-${layer}.gbr`), join(room, "a.gbr"));
      assert.equal(runTool("to_gerber", ["a.gbr"], room).status, 1);
      assert.equal(runTool("to_gerber", ["a.gbr", "--nearest", "-o", "b.gbr"], room).status, 0);
      writeFileSync(join(room, "script"), "load a gerber a.gbr\nload b gerber b.gbr\n");
      const { stdout } = runProgram(PROGRAM, ["script"], room);
      assert.match(stdout, new RegExp(`^refused 13 \\d+\nok ${items}\n$`));
    });
  }
});

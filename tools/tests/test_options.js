// The options of the tools: one name, one meaning; what is made of their tables; and that each tool reads them.

import assert from "node:assert/strict";
import { existsSync, readFileSync, writeFileSync } from "node:fs";
import { join } from "node:path";
import { parsed } from "../lib/calls.js";
import { rowsOf } from "../lib/help.js";
import { lengthOf } from "../../web/board/lengths.js";
import { nearest } from "../lib/nearest.js";
import { part, skip, suite, test } from "./harness.js";
import { COMMANDS, installedName, optionsOfHelp, packagedFiles } from "./packaged.js";
import { REPOSITORY, newRoom, runProgram } from "./support.js";

const nameOf = ({ tool }) => tool.replace("tools/", "");
const helps = () => COMMANDS.map((command) => runProgram(process.execPath, [join(REPOSITORY, command.tool), "--help"]).stdout);
const commandOf = (name) => COMMANDS.find((command) => nameOf(command) === name);
/** @returns {Record<string, unknown>} */
const read = (name, ...words) => parsed(commandOf(name), words);

suite("the table", () => {
  test("has the options that each tool prints, in its order, and no other", () => {
    helps().forEach((help, at) => {
      const command = COMMANDS[at];
      part(command.tool, () => {
        assert.equal(help.split("\n")[0].split(" ")[1], command.tool);
        assert.deepEqual([...optionsOfHelp(help)].map(([words, told]) => ({ words, help: told })), rowsOf(command));
      });
    });
  });

  test("gives a name one meaning: the same words, values and first words of help in every tool", () => {
    const known = new Map();
    for (const [at, help] of helps().entries()) {
      for (const [words, told] of optionsOfHelp(help)) {
        const name = /--[a-z-]+/.exec(words)[0], meaning = told.split(/[;:(]/)[0].trim(), before = known.get(name);
        if (!before) known.set(name, { words, meaning });
        else part(`${COMMANDS[at].tool} ${name}`, () => assert.deepEqual({ words, meaning: meaning.slice(0, before.meaning.length) }, before));
        if (before && meaning.length < before.meaning.length) known.set(name, { words, meaning });
      }
    }
    assert.ok(known.size > 30);
  });

  test("gives every tool --out, --replace, --json, --help and --version, and each window --dpi and --pitch", () => {
    helps().forEach((help, at) => part(COMMANDS[at].tool, () => {
      const names = [...optionsOfHelp(help).keys()].map((words) => /--[a-z-]+/.exec(words)[0]);
      for (const name of ["--out", "--replace", "--json", "--help", "--version"]) assert.ok(names.includes(name), name);
      assert.equal(names.includes("--dpi"), names.includes("--pitch"));
    }));
    for (const name of ["board", "fit", "nets", "panel"]) assert.ok(commandOf(name).options.some((option) => option.name === "--pitch"));
  });

  test("is what completions, man pages and docs/tools.md have (node tools/tests/packaged.js writes them)", () => {
    for (const { path, text } of packagedFiles(helps())) {
      part(path, () => assert.equal(readFileSync(join(REPOSITORY, path), "utf8"), text));
    }
  });

  test("prints the version of the repository", () => {
    const { version } = JSON.parse(readFileSync(join(REPOSITORY, "web", "package.json"), "utf8"));
    for (const command of COMMANDS) {
      const { status, stdout } = runProgram(process.execPath, [join(REPOSITORY, command.tool), "--version"]);
      assert.deepEqual([status, stdout], [0, `${command.tool} ${version}\n`]);
    }
  });
});

suite("completion", () => {
  const script = join(REPOSITORY, "packaging", "camplot-tools.bash");

  function completed(tool, ...words) {
    const line = '. "$1"; shift; COMP_WORDS=("$@"); COMP_CWORD=$(($# - 1)); _camplot_tool "$1"; printf "%s\\n" "${COMPREPLY[@]}"';
    const { status, stdout, stderr } = runProgram("bash", ["-c", line, "-", script, tool, ...words], newRoom());
    assert.deepEqual([status, stderr], [0, ""]);
    return stdout.split("\n").filter((word) => word);
  }

  test("in bash gives each tool its options, the words that one takes, and folders", () => {
    for (const command of COMMANDS) {
      const wanted = [...command.options.map(({ name }) => name), "--help", "--version"].sort();
      assert.deepEqual(completed(installedName(command), "--").sort(), wanted, command.tool);
    }
    assert.deepEqual(completed("camplot-to-xnc", "--unit", ""), ["mm", "inch"]);
    assert.deepEqual(completed("camplot-to-gerber", "--zeros", "l"), ["leading"]);
    assert.deepEqual(completed("camplot-fit", "--dpi", ""), []);
    assert.deepEqual(completed("camplot-board", "--repl"), ["--replace"]);
  });

  test("in zsh is read without a fault, and has the same options", () => {
    const path = join(REPOSITORY, "packaging", "_camplot-tools"), text = readFileSync(path, "utf8");
    for (const command of COMMANDS) {
      const [, own] = new RegExp(`\\n  ${installedName(command)}\\)\\n([^]*?)\\n    ;;`).exec(text);
      const found = [...own.matchAll(/^ {6}'.*?(--[a-z-]+)/gm)].map(([, name]) => name).filter((name) => !["--help", "--version"].includes(name));
      assert.deepEqual(found, command.options.map(({ name }) => name), command.tool);
    }
    if (!["/usr/bin/zsh", "/bin/zsh"].some(existsSync)) skip("zsh is not installed: Debian's package zsh has it");
    assert.deepEqual(runProgram("zsh", ["-n", path]), { status: 0, stdout: "", stderr: "" });
  });
});

suite("the words of a call", () => {
  test("earlier names are read, and long ones that are cut short", () => {
    assert.equal(read("to_gerber", "a", "--force").replace, true);
    assert.equal(read("to_xnc", "a", "--digits", "2:4").format, "2:4");
    assert.equal(read("to_xnc", "a", "--repo", "b").report, "b");
    assert.equal(read("fit", "a", "--pit=8mil").pitch, 203_200);
    assert.throws(() => read("to_xnc", "a", "--re", "b"), /--re is no option/);
  });

  test("values stand in the same word or in the next, two of an option in two words or in one", () => {
    assert.equal(read("to_gerber", "-oout", "a").out, "out");
    assert.equal(read("to_gerber", "--out=x=y", "a").out, "x=y");
    assert.equal(read("to_gerber", "-o", "-", "a").out, "-");
    assert.deepEqual(read("items", "--at", "-1mm", "2um", "a").at, [-1_000_000, 2000]);
    assert.deepEqual(read("items", "a", "--at=5,-6").at, [5, -6]);
    assert.deepEqual(read("to_xnc", "a", "--tool", "1=1", "--tool", "2=2").tool, ["1=1", "2=2"]);
    assert.deepEqual(read("items", "--", "--at").operands, ["--at"]);
    assert.deepEqual(read("items", "-").operands, ["-"]);
  });

  test("lengths have a unit, or that of their option", () => {
    const rows = [["0.2mm", 200_000], ["8mil", 203_200], ["200nm", 200], ["10um", 10_000], ["10µm", 10_000], ["10μm", 10_000],
      ["0.1inch", 2_540_000], ["1in", 25_400_000], [".5", 500_000], ["-3", -3_000_000], ["1e3", null], ["5yd", null], ["", null],
      ["0x10", null], ["1 mm", null], ["mm", null], ["1constructor", null]];
    for (const [text, nm] of /** @type {[string, number | null][]} */ (rows)) assert.equal(lengthOf(text, "mm"), nm, text);
    assert.equal(read("nets", "a", "--gap", "0.15").gap, 150_000);
    assert.equal(read("nets", "a", "--gap", "6mil").gap, 152_400);
    assert.equal(read("fit", "a", "--pitch", "0.01mm").pitch, 10_000);
  });

  test("the nearest word is what may be meant, if one is near", () => {
    for (const [word, found] of [["--ptich", "--pitch"], ["--outt", "--out"], ["--nothing", null], ["--ot", "--out"]]) {
      assert.equal(nearest(word, ["--pitch", "--out", "--dpi"]), found, word);
    }
  });
});

suite("standard output", () => {
  const isFull = existsSync("/dev/full");
  const gerber = "%FSLAX46Y46*%\n%MOMM*%\n%ADD10C,1*%\nD10*\nX0Y0D03*\nM02*\n";

  test("that is full is told in one line, with a status of its own and what was written", () => {
    if (!isFull) skip("there is no /dev/full");
    const room = newRoom();
    writeFileSync(join(room, "a.gbr"), gerber);
    const call = (words) => runProgram("bash", ["-c", '"$0" "$@" > /dev/full', process.execPath, join(REPOSITORY, "tools", words[0]), ...words.slice(1)], room);
    for (const [words, more] of /** @type {[string[], string][]} */ ([[["to_gerber", "a.gbr"], "; a.gbr.gbr was written"], [["fit", "--help"], ""], [["board", "--version"], ""]])) {
      const { status, stderr } = call(words);
      assert.equal(stderr, `tools/${words[0]}: standard output cannot be written: No space left on device${more}\n`);
      assert.equal(status, 3, words.join(" "));
    }
    assert.ok(existsSync(join(room, "a.gbr.gbr")));
  });
});

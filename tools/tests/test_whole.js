// What a tool writes is whole, or it is the file of before: on a full file system, past a limit of the system, in a folder that
// cannot be written, and whenever the tool is killed.

import assert from "node:assert/strict";
import { spawn, spawnSync } from "node:child_process";
import { chmodSync, cpSync, existsSync, linkSync, lstatSync, mkdirSync, readFileSync, readdirSync, rmSync, statSync, symlinkSync,
  writeFileSync } from "node:fs";
import { join } from "node:path";
import { setTimeout as passed } from "node:timers/promises";
import { pathToFileURL } from "node:url";
import { OWN, put } from "../lib/whole.js";
import { afterwards, part, skip, suite, test } from "./harness.js";
import { PROGRAM, REPOSITORY, needProgram, newRoom, runProgram, runTool } from "./support.js";

const KICAD = join(REPOSITORY, "examples", "kicad"), TOP = "nightlight-F_Cu.gbr", NOBODY = 65_534;
const WHOLE = pathToFileURL(join(REPOSITORY, "tools", "lib", "whole.js")).href;
const isRoot = process.getuid?.() === 0;

const tool = (name) => join(REPOSITORY, "tools", name);

// The files of a folder and their bytes, by their paths in it.
function filesOf(folder) {
  const found = readdirSync(folder, { withFileTypes: true }).flatMap((entry) => {
    const path = join(folder, entry.name);
    if (entry.isDirectory()) return [...filesOf(path)].map(([name, text]) => [join(entry.name, name), text]);
    return entry.isFile() ? [[entry.name, readFileSync(path, "latin1")]] : [];
  });
  return new Map(/** @type {[string, string][]} */ (found));
}

const ownOf = (files) => [...files.keys()].filter((name) => name.endsWith(OWN));
// The list of the files has those of before and new ones, and the replies tell which plots were refused.
const LIST = ".left_by_board.json", TELLING = [LIST, "replies"], isPlain = (name) => !TELLING.includes(name);

// Each file is the one of before or the new one.
function checkEither(files, before, after, isKilled = false) {
  assert.ok(ownOf(files).length <= Number(isKilled), ownOf(files).join(", "));
  for (const [name, text] of files) {
    if (isPlain(name) && !name.endsWith(OWN)) assert.ok(text === before.get(name) || text === after.get(name), `${name} is neither`);
  }
  for (const name of before.keys()) assert.ok(files.has(name), `${name} is lost`);
  assert.equal(files.get("replies").split("\n").length, after.get("replies").split("\n").length);
}

// A board of the example, as two runs leave it, which have other colours.
function twoBoards() {
  needProgram();
  const room = newRoom(), page = join(room, "page.html"), out = join(room, "out"), made = [];
  writeFileSync(page, `<nav id="left"></nav><script type="application/json" id="contents">null</script>${"<!-- long -->".repeat(60_000)}`);
  const words = ["board", join(KICAD, TOP), "--page", page, "--camplot", PROGRAM, "--out"];
  for (const mask of ["green", "blue"]) {
    const folder = join(room, mask), { status, stderr } = runTool(words[0], [...words.slice(1), folder, "--mask", mask]);
    assert.equal(status, 0, stderr);
    made.push(filesOf(folder));
  }
  const lay = () => {
    rmSync(out, { recursive: true, force: true });
    cpSync(join(room, "green"), out, { recursive: true, preserveTimestamps: true });
    return out;
  };
  return { room, lay, before: made[0], after: made[1], call: (folder) => [...words, folder, "--mask", "blue"] };
}

/**
 * Runs a tool in a copy of a folder on a file system of our own, on which so many kB are free.
 * @param {string} folder
 * @param {number} free
 * @param {string[]} call the name of the tool, and its words
 * @returns {{status: number, stdout: string, stderr: string, files: Map<string, string>}} with the files of it after the run
 */
function runOnFull(folder, free, call) {
  const [name, ...words] = call, room = newRoom(), full = join(room, "full"), seen = join(room, "seen");
  mkdirSync(full);
  const steps = 'mount -t tmpfs -o size=40m none "$1" && cp -r "$2"/. "$1" && cd "$1" && used=$(df -k --output=used . | tail -n 1) '
    + '&& mount -o remount,size=$((used + $3))k . || exit 99; four="$4"; shift 4; "$@"; status=$?; cp -r . "$four"; exit $status';
  const done = runProgram("unshare", [isRoot ? "-m" : "-rm", "bash", "-c", steps, "-", full, folder, free, seen, process.execPath, tool(name), ...words]);
  if (done.status === 99 || !existsSync(seen)) skip(`unshare and mount make no file system: ${done.stderr}`);
  return { ...done, files: filesOf(seen) };
}

function needUnshare() {
  const done = spawnSync("unshare", [isRoot ? "-m" : "-rm", "true"]);
  if (done.status !== 0) skip("a full file system, which unshare and mount make");
}

// (It may have ended by itself just before.)
function killGroup(id) {
  try {
    process.kill(-id, "SIGKILL");
  } catch (fault) {
    assert.equal(fault.code, "ESRCH");
  }
}

suite("a file that is put", () => {
  test("keeps its links, its mode and another path; a stream is written straight", () => {
    const room = newRoom(), at = (name) => join(room, name), text = (name) => readFileSync(at(name), "utf8");
    mkdirSync(at("deep"));
    writeFileSync(at("deep/real"), "before");
    chmodSync(at("deep/real"), 0o640);
    symlinkSync("deep/real", at("link"));
    linkSync(at("deep/real"), at("other"));
    symlinkSync("deep/made", at("nowhere"));
    writeFileSync(at(`fresh${OWN}`), "of a run that was killed");
    for (const name of ["link", "nowhere", "fresh", "n".repeat(250)]) put(at(name), name);
    assert.deepEqual([text("deep/real"), text("other"), text("deep/made"), text("fresh")], ["link", "before", "nowhere", "fresh"]);
    assert.ok(lstatSync(at("link")).isSymbolicLink() && lstatSync(at("nowhere")).isSymbolicLink());
    assert.equal(statSync(at("deep/real")).mode & 0o777, 0o640);
    assert.throws(() => put(at("fresh"), "again", true), { code: "EEXIST" });
    assert.throws(() => put(at("deep"), "x"), { code: "EISDIR" });
    assert.deepEqual([text("fresh"), ownOf(filesOf(room))], ["fresh", []]);
    put("/dev/null", "x");
    const piped = runProgram("bash", ["-c", `"$0" --input-type=module -e 'import { put } from "${WHOLE}"; put("/dev/stdout", "two\\n")' | cat`, process.execPath]);
    assert.equal(piped.stdout, "two\n");
    runProgram("bash", ["-c", `{ echo one; "$0" --input-type=module -e 'import { put } from "${WHOLE}"; put("/dev/stdout", "two\\n")'; echo three; } > "$1"`,
      process.execPath, at("all")]);
    assert.equal(text("all"), "one\ntwo\nthree\n");
  });

  test("is whole whenever the process is killed", async () => {
    const room = newRoom(), path = join(room, "target"), texts = ["a", "b"].map((letter) => letter.repeat(3_000_000));
    const loop = `import { put } from ${JSON.stringify(WHOLE)}; const texts = ["a", "b"].map((letter) => letter.repeat(3_000_000));
      for (let at = 0; ; at++) { put(${JSON.stringify(path)}, texts[at % 2]); if (at === 1) process.stdout.write("on"); }`;
    for (let kill = 0; kill < 12; kill++) {
      const running = spawn(process.execPath, ["--input-type=module", "-e", loop], { stdio: ["ignore", "pipe", "inherit"] });
      afterwards(() => running.kill("SIGKILL"));
      await new Promise((resolve) => running.stdout.once("data", resolve));
      await passed(10 * Math.random());
      running.kill("SIGKILL");
      await new Promise((resolve) => running.once("exit", resolve));
      assert.ok(texts.includes(readFileSync(path, "utf8")), `kill ${kill} left a file that is cut`);
      assert.ok(readdirSync(room).every((name) => name === "target" || name === `target${OWN}`), readdirSync(room).join(", "));
    }
  });
});

suite("a board", () => {
  test("on a full file system: what was written and what not", () => {
    needUnshare();
    const { lay, before, after, call } = twoBoards(), folder = lay();
    for (const free of [0, 12, 700]) {
      part(`${free} kB`, () => {
        const { status, stderr, files } = runOnFull(folder, free, call("."));
        assert.equal(status, 2, stderr);
        assert.match(stderr, /^tools\/board: \S+: cannot be written: No space left on device\ntools\/board: (nothing was written|written) into \./);
        checkEither(files, before, after);
        const named = /written into \.: (.*)\n/.exec(stderr)?.[1].split(", ") ?? [], others = /what was there stays: (.*)\n/.exec(stderr)?.[1].split(", ") ?? [];
        for (const name of named.filter(isPlain)) assert.equal(files.get(name), after.get(name), name);
        for (const name of others.filter(isPlain)) assert.equal(files.get(name), before.get(name), name);
        if (named.length) assert.deepEqual([...named, ...others].filter((name) => name !== LIST).sort(), [...after.keys()].filter((name) => name !== LIST).sort());
      });
    }
  });

  test("past a limit of the system, and then again", () => {
    const { lay, before, after, call } = twoBoards(), folder = lay(), [name, ...words] = call(folder);
    const { status, stderr } = runProgram("bash", ["-c", 'ulimit -f 500; exec "$@"', "-", process.execPath, tool(name), ...words]);
    assert.equal(status, 2);
    assert.match(stderr, /index\.html: cannot be written: File too large\n[^]*not written, so that what was there stays: index\.html\n$/);
    checkEither(filesOf(folder), before, after);
    assert.equal(runTool(name, words).status, 0);
    assert.deepEqual(filesOf(folder), after);
  });

  test("killed at any moment, and then made anew", async () => {
    const { room, lay, before, after, call } = twoBoards();
    const last = ["files/top.gbr", "replies", "top.png", "bottom.svg"];
    for (const wanted of last) {
      const folder = lay(), [name, ...words] = call(folder), begun = Date.now();
      const running = spawn(process.execPath, [tool(name), ...words], { stdio: "ignore", detached: true });
      afterwards(() => running.kill("SIGKILL"));
      // (it is killed after a part of its files)
      const first = statSync(join(folder, wanted)).ino;
      while (statSync(join(folder, wanted)).ino === first && Date.now() < begun + 60_000) await passed(1);
      const ended = running.exitCode === null ? new Promise((resolve) => running.once("exit", resolve)) : null;
      if (ended) killGroup(running.pid);
      await ended;
      checkEither(filesOf(folder), before, after, true);
    }
    const folder = join(room, "out"), [name, ...words] = call(folder);
    assert.equal(runTool(name, [...words, "--replace"]).status, 0);
    assert.deepEqual(filesOf(folder), after);
  });
});

suite("other tools", () => {
  test("on a full file system", () => {
    needUnshare();
    needProgram();
    const room = newRoom(), old = "before\n".repeat(2_000), top = join(KICAD, TOP), gaps = ["nets", KICAD, "--gap", "2mm"];
    mkdirSync(join(room, "panel"));
    writeFileSync(join(room, "panel", TOP), old);
    for (const name of ["file", "nets.accepted"]) writeFileSync(join(room, name), name === "file" ? old : "# ours\n");
    const rows = /** @type {[string[], number, RegExp][]} */ ([
      [["to_gerber", top, "-o", "file", "--replace"], 0, /file: cannot be written: No space/],
      [["items", top, "-o", "file", "--replace"], 0, /file: cannot be written: No space/],
      [["compare", KICAD, top, "-o", "file", "--replace"], 0, /file: cannot be written: No space/],
      [["compare", top, join(KICAD, "nightlight-B_Cu.gbr"), "--html", "file", "--replace"], 0, /file: cannot be written: No space/],
      [["fit", top, "-o", "file", "--replace"], 0, /file: cannot be written: No space/],
      [["fit", top, "--links", "links"], 0, /links: cannot be written: No space|links\/script: cannot be written: No space/],
      [["panel", KICAD, "--columns", "2", "--spacing", "2mm", "-o", "panel", "--replace"], 6, /written into panel: .*\n.*not written, so that what was there stays: nightlight/],
      [[...gaps, "--pictures", "shown"], 12, /shown\/0\d\d-gap\.png: cannot be written: No space[^]*written into shown: 001-gap.png, [^]*not written.*: 0\d\d-gap/],
      [[...gaps, "--accept", "so be it", "--accepted", "nets.accepted"], 0, /nets\.accepted: cannot be written: No space/],
    ]);
    for (const [words, free, told] of rows) {
      part(words.join(" "), () => {
        const { status, stderr, files } = runOnFull(room, free, [...words, ...words[0] === "items" ? [] : ["--camplot", PROGRAM]]);
        assert.match(stderr, told);
        assert.equal(status, 2);
        assert.deepEqual([files.get("file"), files.get("nets.accepted"), ownOf(files)], [old, "# ours\n", []]);
        const panel = files.get(join("panel", TOP));
        assert.ok(panel === old || panel.endsWith("M02*\n"), panel);
        for (const [name, text] of files) if (name.endsWith(".png")) assert.ok(text.endsWith("IEND\xaeB`\x82"), name);
      });
    }
  });

  test("in a folder that cannot be written, while the file can", () => {
    const room = newRoom(), path = join(room, "file"), words = [process.execPath, tool("items"), join(KICAD, TOP), "-o", path, "--replace"];
    const asNobody = isRoot ? ["setpriv", `--reuid=${NOBODY}`, `--regid=${NOBODY}`, "--clear-groups"] : ["env"];
    if (spawnSync(asNobody[0], [...asNobody.slice(1), "test", "-r", tool("items")]).status !== 0) skip("setpriv is missing, or nobody may read the repository");
    writeFileSync(path, "before\n");
    chmodSync(path, 0o666);
    chmodSync(room, 0o555);
    afterwards(() => chmodSync(room, 0o755));
    const call = () => runProgram(asNobody[0], [...asNobody.slice(1), ...words]);
    assert.equal(call().status, 0);
    assert.match(readFileSync(path, "utf8"), /flash/);
    assert.deepEqual(readdirSync(room), ["file"]);
    writeFileSync(path, "before\n");
    chmodSync(path, 0o444);
    const { status, stderr } = call();
    assert.match(stderr, /file: cannot be written: Permission denied/);
    assert.deepEqual([status, readFileSync(path, "utf8")], [2, "before\n"]);
  });
});

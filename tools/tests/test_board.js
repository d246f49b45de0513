// tools/board: what it prints of each layer, what it leaves, and what it leaves alone.

import assert from "node:assert/strict";
import { copyFileSync, cpSync, existsSync, mkdirSync, readFileSync, readdirSync, renameSync, rmSync, writeFileSync } from "node:fs";
import { dirname, join } from "node:path";
import { gunzipSync } from "node:zlib";
import { scriptLines } from "../../web/board/replies.js";
import { Room } from "../lib/rooms.js";
import { runLines } from "../lib/station.js";
import { part, suite, test } from "./harness.js";
import { CASES, PROGRAM, REPOSITORY, needProgram, newRoom, runProgram, runTool } from "./support.js";

const BOARDS = join(CASES, "board");

// What stands in place of the editor: the page is tried in web/tests.
const EMPTY = '<p>a page</p><script type="application/json" id="contents">null</script>\n';

function emptyPage() {
  const path = join(newRoom(), "camplot.html");
  writeFileSync(path, EMPTY);
  return path;
}

// Runs the tool, and gives all that it prints.
function board(words, status = 0) {
  needProgram();
  const done = runTool("board", [...words, "--camplot", PROGRAM, "--page", emptyPage()]);
  assert.equal(done.status, status, done.stdout + done.stderr);
  return done.stdout + done.stderr;
}

function lay(name, folder = join(newRoom(), "files")) {
  cpSync(join(BOARDS, name), folder, { recursive: true });
  return folder;
}

function pictures(folder) {
  return readdirSync(folder).filter((name) => name.endsWith(".pbm")).map((name) => name.slice(0, -4)).sort();
}

// What the page in a folder opens; the bytes of each file are unpacked.
function contentsOf(folder) {
  const [, text] = /id="contents">([^<]*)</.exec(readFileSync(join(folder, "index.html"), "utf8"));
  const { title, window, ...lists } = JSON.parse(text);
  const unpacked = ({ packed, ...rest }) => (packed ? { ...rest, bytes: gunzipSync(Buffer.from(packed, "base64")) } : rest);
  const [files, lines, pictures] = [lists.files, lists.lines, lists.pictures].map((list) => list.map(unpacked));
  return { title, window, files, lines, pictures };
}

function sides(path) {
  return readFileSync(path).subarray(0, 40).toString("latin1").split(/\s+/).slice(1, 3).map(Number);
}

function includes(text, part) {
  assert.ok(text.includes(part), `'${part}' is not in:\n${text}`);
}

suite("plotted", () => {
  test("boards of each program", () => {
    for (const [name, wanted, leftOut] of /** @type {[string, string[], string | null][]} */ ([
      ["altium", ["bottom", "drawing", "holes", "in1", "outline", "top", "top-mask", "top-silk"], "Pick_Place.txt"],
      ["eagle", ["bottom", "bottom-mask", "holes", "top", "top-mask", "top-silk"], "amp.dri"],
      ["fritzing", ["bottom", "holes", "outline", "top", "top-mask", "top-silk"], null]])) {
      part(name, () => {
        const folder = lay(name), told = board([folder]);
        assert.deepEqual(pictures(join(folder, "board")), wanted);
        assert.equal(told.includes("left out"), leftOut !== null);
        includes(told, leftOut ?? "");
        assert.equal(contentsOf(join(folder, "board")).title, "files");
      });
    }
  });

  test("the window stands around the outline", () => {
    const folder = lay("altium"), told = board([folder, "--dpi", 254]);
    // The outline of 10 by 8 mm, half its line's width, and the margin of 1 mm, in pixels of 0.1 mm.
    includes(told, "around the outline: 12.20 x 10.20 mm, 122 x 102 pixels of 100000 nm");
    assert.deepEqual(sides(join(folder, "board", "top.pbm")), [122, 102]);
    includes(told.split("Amp.GM2")[1].split("\n")[1], "reaches beyond the window");
  });

  test("the window stands around all layers without an outline", () => {
    const folder = lay("eagle");
    includes(board([folder, "--dpi", 254]), "around all layers, as there is no outline");
    assert.deepEqual(sides(join(folder, "board", "holes.pbm")), [38, 38]);
  });

  test("a refused layer is told with its number, meaning and place", () => {
    const folder = lay("refused"), told = board([folder], 1);
    includes(told, "refused 11, template refused: ");
    includes(told, "At line 3, column 1 (byte 24): %ADD10P,1X6*%");
    includes(told, "refused 45, no point: A coordinate without a decimal point");
    includes(told, "At line 6, column 1 (byte 24): X0100Y0200");
    includes(told, "--zeros leading, or after tools/to_xnc ");
    assert.match(told, /it loads after tools\/to_gerber \S+b-B_Cu\.gbr\n/);
    includes(told, "refused 26, no end: The file ends without `M02*`. At line 1, column 1 (byte 0), the end of the file");
    assert.deepEqual(pictures(join(folder, "board")), ["top"]);
  });

  test("its script runs again for the same pictures", () => {
    const folder = join(lay("fritzing"), "board");
    board([join(folder, "..")]);
    const read = () => pictures(folder).map((name) => readFileSync(join(folder, `${name}.pbm`), "latin1"));
    const before = read();
    const replies = runLines(PROGRAM, folder, scriptLines(readFileSync(join(folder, "script"), "latin1")));
    assert.ok(replies.every((reply) => reply.isAccepted));
    assert.deepEqual(read(), before);
  });

  test("names outside of a script's grammar", () => {
    let folder = lay("refused", join(newRoom(), "a folder with blanks, ünïcode & 'quotes'"));
    for (let depth = 0; depth < 3; depth++) folder = join(folder, "deep".repeat(30));
    mkdirSync(folder, { recursive: true });
    const names = ["a name of more than thirty-two letters, with blanks.gbr", "größe-F_Mask.gbr", "-n.gbr", "#.gbr"];
    for (const name of names) copyFileSync(join(BOARDS, "refused", "b-F_Cu.gbr"), join(folder, name));
    assert.ok(folder.length > 255);
    const told = board([folder]);
    assert.deepEqual(pictures(join(folder, "board")), ["other", "other-2", "other-3", "top-mask"]);
    for (const name of names) includes(told, name);
  });

  test("a name that is no UTF-8", () => {
    const folder = lay("fritzing");
    const name = Buffer.concat([Buffer.from(join(folder, "gr")), Buffer.from([0xf6]), Buffer.from("sse.gbs")]);
    copyFileSync(join(BOARDS, "refused", "b-F_Cu.gbr"), name);
    includes(board([folder]), "bottom solder mask, by its name: gr\ufffdsse.gbs");
    assert.ok(pictures(join(folder, "board")).includes("bottom-mask"));
  });

  test("more layers than one run takes", () => {
    const folder = join(newRoom(), "many"), numbers = Array.from({ length: 40 }, (_, at) => at + 1);
    mkdirSync(folder);
    for (const number of numbers) copyFileSync(join(BOARDS, "refused", "b-F_Cu.gbr"), join(folder, `b-In${number}_Cu.gbr`));
    board([folder]);
    assert.deepEqual(pictures(join(folder, "board")), numbers.map((number) => `in${number}`).sort());
    assert.ok(existsSync(join(folder, "board", "script-2")));
  });

  test("files that are named are layers whatever they are called", () => {
    const folder = lay("refused"), out = join(newRoom(), "out");
    renameSync(join(folder, "b-F_Cu.gbr"), join(folder, "what"));
    includes(board([join(folder, "what"), "--out", out]), "what, by what it holds");
    assert.ok(existsSync(join(out, "other.pbm")));
  });

  test("edits come onto the page", () => {
    const folder = lay("fritzing"), edits = join(newRoom(), "edits");
    writeFileSync(edits, "move top 0 500000 0\r\nplot top moved.pbm\nundo\n# größe\nplot top again.pbm\nmove top 9 0 0\n"
      + "load old gerber files/bottom.gbr\nplot old old.pbm\n");
    const told = board([folder, "--edits", edits], 1), left = join(folder, "board");
    includes(told, "move top 9 0 0\n  refused 61, no item: The layer has no item at this place");
    const read = (name) => readFileSync(join(left, name));
    assert.ok(read("again.pbm").equals(read("top.pbm")));
    assert.ok(!read("moved.pbm").equals(read("top.pbm")));
    includes(read("script").toString(), "# größe\n");
    // The page opens the layers' files, runs what was accepted and changes something, and has the plots beside.
    const { files, lines, pictures: plots, window } = contentsOf(left);
    assert.ok(files.find(({ name }) => name === "my sketch_copperTop.gtl").bytes.equals(read("files/top.gbr")));
    assert.deepEqual(lines.map(({ line }) => line), ["move top 0 500000 0", "undo", "load old gerber files/bottom.gbr"]);
    assert.ok(lines[2].bytes.equals(read("files/bottom.gbr")));
    assert.deepEqual(plots.map(({ name, layer }) => [name.split(" ")[0], layer]),
      [["moved.pbm", "top"], ["again.pbm", "top"], ["old.pbm", "old"]]);
    for (const { name, bytes, window: its } of plots) {
      assert.ok(bytes.equals(read(name.split(" ")[0])));
      assert.equal(its, window);
    }
  });

  test("a page of refused layers has their files too", () => {
    const folder = lay("refused");
    rmSync(join(folder, "b-F_Cu.gbr"));
    includes(board([folder], 1), "no layer was plotted");
    assert.equal(contentsOf(join(folder, "board")).files.length, readdirSync(folder).length - 1);
  });

  test("where there is no page", () => {
    needProgram();
    const top = join(newRoom(), "lib", "camplot"), folder = lay("eagle");
    for (const part of ["tools", "web"]) {
      cpSync(join(REPOSITORY, part), join(top, part), { recursive: true, filter: (path) => !/\/out\/.*html$/.test(path) });
    }
    const call = () => runProgram(process.execPath, [join(top, "tools", "board"), folder, "--camplot", PROGRAM]);
    const without = call();
    assert.equal(without.status, 0, without.stderr);
    includes(without.stdout, "there is no page, since there is no camplot.html: install camplot again; --page names another");
    assert.ok(!existsSync(join(folder, "board", "index.html")));
    // Where an installation has it.
    const page = join(dirname(dirname(top)), "share", "camplot", "camplot.html");
    mkdirSync(dirname(page), { recursive: true });
    writeFileSync(page, EMPTY);
    includes(call().stdout, "the page: ");
    assert.equal(contentsOf(join(folder, "board")).files.length, 6);
  });

  test("the repository's boards", () => {
    for (const { name, wanted } of [{ name: "blinker", wanted: ["holes", "top"] }, { name: "kicad", wanted: ["bottom", "bottom-mask",
      "nonplated", "outline", "plated", "top", "top-mask", "top-silk"] }]) {
      const out = join(newRoom(), name);
      board([join(REPOSITORY, "examples", name), "--out", out]);
      assert.deepEqual(pictures(out), wanted, name);
    }
  });
});

suite("left alone", () => {
  test("its own files are replaced", () => {
    const folder = lay("fritzing");
    board([folder]);
    rmSync(join(folder, "my sketch_silkTop.gto"));
    board([folder]);
    assert.ok(!pictures(join(folder, "board")).includes("top-silk"));
  });

  test("a file that was changed is not", () => {
    const folder = lay("fritzing"), script = join(folder, "board", "script");
    board([folder]);
    writeFileSync(script, "list\n");
    includes(board([folder], 2), "was changed");
    assert.equal(readFileSync(script, "utf8"), "list\n");
    board([folder, "--replace"]);
    assert.notEqual(readFileSync(script, "utf8"), "list\n");
  });

  test("a folder of others is refused", () => {
    const folder = lay("fritzing"), out = join(newRoom(), "out");
    mkdirSync(out);
    writeFileSync(join(out, "top.pbm"), "mine");
    includes(board([folder, "--out", out], 2), "has files of other origin");
    assert.deepEqual(readdirSync(out), ["top.pbm"]);
  });

  test("a file in the way is not replaced", () => {
    const folder = lay("eagle"), mine = join(folder, "board", "outline.pbm");
    board([folder]);
    writeFileSync(mine, "mine");
    copyFileSync(join(BOARDS, "altium", "Amp.GKO"), join(folder, "amp.gko"));
    includes(board([folder], 2), "is in the way");
    assert.equal(readFileSync(mine, "utf8"), "mine");
  });

  test("a list that was tampered with", () => {
    const folder = lay("eagle"), list = join(folder, "board", ".left_by_board.json");
    board([folder]);
    writeFileSync(list, "[1");
    includes(board([folder], 2), "is not a list of an earlier run");
    writeFileSync(list, '{"top.pbm": 1}');
    includes(board([folder], 2), "is not a list of an earlier run");
    writeFileSync(list, '{"../amp.dri": "0"}');
    board([folder, "--replace"]);
    assert.ok(existsSync(join(folder, "amp.dri")));
  });

  test("a file whose name each object of JavaScript has stays in the list of a run that fails", () => {
    const folder = newRoom(), list = join(folder, ".left_by_board.json");
    new Room(folder, false).fill(() => undefined);
    const room = new Room(folder, true);
    assert.throws(() => room.fill(() => {
      for (const name of ["constructor", "__proto__"]) room.write(name, name);
      throw new Error("it fails");
    }), /it fails/);
    assert.deepEqual(Object.keys(JSON.parse(readFileSync(list, "utf8"))).sort(), ["__proto__", "constructor"]);
  });

  test("a run that fails takes nothing away that the next one needs", () => {
    const folder = lay("fritzing");
    board([folder]);
    const none = runTool("board", [folder, "--camplot", join(folder, "none")]);
    assert.equal(none.status, 2);
    includes(none.stderr, "does not exist: ./demo builds it");
    assert.ok(existsSync(join(folder, "board", "index.html")));
    assert.equal(runTool("board", [folder, "--camplot", ["/bin/false", "/usr/bin/false"].find(existsSync)]).status, 2);
    board([folder]);
  });

  test("calls that do not fit", () => {
    const room = newRoom();
    for (const words of [[join(room, "nowhere")], [room], [room, room], [room, "--dpi", 0], [room, "--dpi", "x"], [],
      [room, "--edits", join(room, "none")], [room, "--page", join(room, "none")]]) {
      part(words.join(" "), () => board(words, 2));
    }
    writeFileSync(join(room, "full.html"), "<p>no room</p>");
    const { status, stderr } = runTool("board", [join(BOARDS, "refused", "b-F_Cu.gbr"), "--page", join(room, "full.html"), "--camplot", PROGRAM, "-o", join(room, "out")]);
    assert.match(stderr, /^tools\/board: \S+full\.html: the page has no room for files[^]*not written, so that what was there stays: index\.html\n$/);
    assert.equal(status, 2);
  });
});

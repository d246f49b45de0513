// What files say of their items, beside the station.

import assert from "node:assert/strict";
import { existsSync, readFileSync, writeFileSync } from "node:fs";
import { join } from "node:path";
import { gzipSync } from "node:zlib";
import { afterwards, part, skip, suite, test } from "../../tools/tests/harness.js";
import { Browser, chromium } from "./browser.js";
import { EXAMPLES, MODULE, REPOSITORY, room } from "./support.js";
import { canonicalTexts, filesUnder, itemLines } from "./stations.js";
import { kindOf } from "../board/file_kinds.js";
import { latin1Bytes } from "../bytes/text.js";
import { inlined } from "../building/inline.js";
import { NotJoined, checkJoined, named, plainText, readAttributes } from "../attributes/read.js";

// Files that go over to the browser at once.
const AT_ONCE = 40;
const HEAD = "%FSLAX46Y46*%\n%MOMM*%\n%ADD10C,1*%\n%ADD11R,2X1*%\nG75*\nD10*\n";

const read = (text) => readAttributes(latin1Bytes(`${HEAD}${text}M02*\n`));
const texts = (attributes) => attributes.map(({ text }) => text);
// The attributes of each item, as texts.
const said = (text) => read(text).items.map(({ attributes }) => texts(attributes));

const refused = (text, why) => part(text, () => assert.throws(() => read(text), (fault) => {
  assert.ok(fault instanceof NotJoined, String(fault));
  assert.match(fault.message, why);
  return true;
}));

suite("what holds for an object", () => {
  test("is what stands before it, until it is deleted or set again", () => {
    assert.deepEqual(said("X0Y0D03*\n%TO.N,A*%\nX0Y0D03*\n%TO.P,R1,1*%\nX0Y0D03*\n%TO.N,B*%\nX0Y0D03*\n%TD.P*%\nX0Y0D03*\n"
      + "%TO.C,R2*%\n%TD*%\nX0Y0D03*\n"),
    [[], ["TO.N,A"], ["TO.N,A", "TO.P,R1,1"], ["TO.N,B", "TO.P,R1,1"], ["TO.N,B"], []]);
  });

  test("counts for draws, arcs and flashes, and not for moves", () => {
    const { items, heads } = read("%TO.N,A*%\nX0Y0D02*\nX10Y0D01*\n%TO.N,B*%\nG02X0Y10I-10J0D01*\n%TO.N,C*%\nG01*\nX5D2*\n"
      + "G54D11*\nX6D1*\n%TO.N,D*%\nX7*\n");
    assert.deepEqual(items.map(({ attributes }) => texts(attributes)[0]), ["TO.N,A", "TO.N,B", "TO.N,C", "TO.N,D"]);
    assert.deepEqual(heads, ["draw 10", "arc 10", "draw 11", "draw 11"]);
  });

  test("keeps its fields as they are written, but for line ends", () => {
    const { items: [{ attributes }] } = read("%TO.N,A\\u002CB, \xc3\xa9,,\r\nx*%\nX0Y0D03*\n");
    assert.deepEqual(attributes[0].fields, ["A\\u002CB", " \xc3\xa9", "", "x"]);
    assert.equal(attributes[0].text, "TO.N,A\\u002CB, \xc3\xa9,,x");
    assert.deepEqual(attributes[0].fields.map(plainText), ["A,B", " \u00e9", "", "x"]);
    assert.deepEqual(said("%TO.N\n,A*%\nX0Y0D03*\n%TD.\r\nN*%\nX0Y0D03*\n"), [["TO.N,A"], []]);
    assert.deepEqual(said("%TO *%\n%TOA*%\nX0Y0D03*\n"), [["TO ", "TOA"]]);
  });

  test("stands in comments too", () => {
    assert.deepEqual(said("G04 #@! TO.N,A*\nX0Y0D03*\nG4#@!TO.P,U1,2*\nX0Y0D03*\nG04 #@! TD*\nX0Y0D03*\nG04 TO.N,B*\nX0Y0D03*\n"
      + "G04 #@! TF.Part,Single*\nX0Y0D03*\n"), [["TO.N,A"], ["TO.N,A", "TO.P,U1,2"], [], [], []]);
  });

  test("has one attribute of a name", () => {
    assert.deepEqual(said("%TO.N,A*%\n%TOx*%\n%TA.N,B*%\nX0Y0D03*\n%TO.N,C*%\nX0Y0D03*\n"), [["TOx"], ["TO.N,C", "TOx"]]);
  });
});

suite("what holds for a region", () => {
  test("is what stands before the first segment of its contour, aperture attributes too", () => {
    assert.deepEqual(said("%TA.AperFunction,Conductor*%\n%TO.N,A*%\nG36*\nX0Y0D02*\nX1D01*\nY1D01*\n%TO.N,B*%\nX5Y5D02*\nX6D01*\n"
      + "Y6D01*\nG37*\n%TD*%\nG36*\nX0Y0D02*\nX1D01*\nG37*\n%TO.N,C*%\nG36*\nX9Y9D02*\nX8Y8D02*\nG37*\nX0Y0D03*\n"),
    [["TA.AperFunction,Conductor", "TO.N,A"], ["TA.AperFunction,Conductor", "TO.N,B"], [], ["TO.N,C"]]);
  });
});

suite("what holds for an aperture", () => {
  test("is what stands before its definition", () => {
    const { apertures, items } = read("%TA.AperFunction,ViaPad*%\n%ADD12C,1*%\n%TAmine,1*%\n%ADD13R,1X1*%\n%TD.AperFunction*%\n"
      + "%ABD14*%\n%TD*%\nX0Y0D03*\n%AB*%\n%ADD15C,1*%\nD12*\nX0Y0D03*\n");
    assert.deepEqual([...apertures].map(([number, attributes]) => [number, texts(attributes)]), [[10, []], [11, []],
      [12, ["TA.AperFunction,ViaPad"]], [13, ["TA.AperFunction,ViaPad", "TAmine,1"]], [14, ["TAmine,1"]], [15, []]]);
    assert.equal(named(apertures.get(13), "mine").fields[0], "1");
    assert.deepEqual(items.map(({ attributes }) => attributes), [[]]);
  });
});

suite("blocks and repeats", () => {
  test("have objects with attributes of their own", () => {
    const { items, blocks, heads } = read("%TO.N,A*%\n%ABD12*%\nX0Y0D03*\n%TO.N,B*%\nX0Y0D03*\n%AB*%\nD12*\nX0Y0D03*\n"
      + "%SRX2Y1I5J0*%\nX0Y0D03*\n%TO.N,C*%\nG36*\nX0Y0D02*\nX1D01*\nG37*\n%SRX1Y3J5*%\n%SRX3Y1*%\nD11*\nX0Y0D03*\n%SR*%\nX0Y0D03*\n");
    assert.deepEqual(blocks.get(12).said.map(({ attributes }) => texts(attributes)), [["TO.N,A"], ["TO.N,B"]]);
    assert.deepEqual(blocks.get(12).heads, ["flash 10", "flash 10"]);
    assert.deepEqual(heads, ["flash 12", "repeat 2 1", "  flash 12", "  region", "repeat 3 1", "  flash 11", "flash 11"]);
    assert.deepEqual(items.map(({ attributes, objects }) => [texts(attributes), objects.map((each) => texts(each.attributes))]),
      [[["TO.N,B"], []], [[], [["TO.N,B"], ["TO.N,C"]]], [[], [["TO.N,C"]]], [["TO.N,C"], []]]);
  });

  test("one that is open at the end of the file is closed there", () => {
    assert.deepEqual(read("%SRX2Y2I1J1*%\nX0Y0D03*\n").heads, ["repeat 2 2", "  flash 10"]);
  });
});

suite("escapes", () => {
  test("are undone, old ones too", () => {
    for (const [raw, plain] of [["\\u00b5V", "\u00b5V"], ["\\00B5V", "\u00b5V"], ["\\U0001F600", "\u{1f600}"],
      ["\\uD83D\\uDE00", "\u{1f600}"], ["\\UFFFFFFFF", "\\UFFFFFFFF"], ["\\u12", "\\u12"], ["C:\\x", "C:\\x"], ["a\\u002cb\\u0025", "a,b%"],
      ["\\\\u0041", "\\A"], ["\xce\xa9", "\u03a9"], ["", ""]]) {
      part(raw, () => assert.equal(plainText(raw), plain));
    }
  });
});

suite("a file that no station loads", () => {
  test("is refused, with its place", () => {
    refused("%TO.N,A*TO.P,R1,1*%\n", /byte 58: several commands/);
    refused("%TO.N,A%\n", /byte 58: no extended command/);
    refused("Q*\n", /byte 58: no word: Q/);
    refused("X0Y0D03*\nX1*\n", /byte 67: coordinates without a D code: X1/);
    refused("%AB*%\n", /byte 58: no block is open/);
    assert.throws(() => readAttributes(latin1Bytes("%TO.N,A*%\nX0Y0D03*\n")), /byte 19: the end \(M02\) is missing/);
    assert.throws(() => readAttributes(latin1Bytes("%TO.N,A*\n")), /byte 0: the command has no end/);
  });
});

// A page that answers with the station of the module.
async function answeringPage() {
  if (!chromium()) skip("no chromium is at hand");
  if (!existsSync(MODULE)) skip("web/out/station.wasm is not built");
  const path = join(room(), "answers.html"), packed = gzipSync(readFileSync(MODULE)).toString("base64");
  writeFileSync(path, `<!DOCTYPE html><meta charset="utf-8"><body><script type="text/plain" id="module">${packed}</script>`
    + `<script>${inlined(join(REPOSITORY, "web", "tests", "answers_page.js"))}</script>`);
  const browser = await Browser.open(path);
  afterwards(() => browser.close());
  return browser;
}

// Of an answer to `entries`, the lines of each block that name its objects.
function blocksOf(lines) {
  const blocks = new Map();
  let block = null;
  for (const line of lines) {
    const found = /^block (\d+) /.exec(line);
    if (found) blocks.set(Number(found[1]), block = []);
    else if (line.startsWith("  ")) block.push(line.slice(2));
  }
  return blocks;
}

suite("joining", () => {
  test("tells where an item is another", () => {
    const reading = read("X0Y0D03*\nX0Y0D02*\nX1D01*\n");
    checkJoined(reading, ["flash 10 0 0 r0 dark", "draw 10 0 0 1 0 r0 dark"]);
    for (const [lines, why] of [[["flash 10 0 0 r0 dark"], "line 1: the file has draw 10, and the station none"],
      [["flash 1 0 0 r0 dark"], "line 0: the file has flash 10, and the station flash 1 0 0 r0 dark"],
      [["flash 10 0 0 r0 dark", "draw 10 0 0 1 0 r0 dark", "hit 1 0 0"], "line 2: the file has none, and the station hit 1 0 0"]]) {
      assert.throws(() => checkJoined(reading, lines), { message: why });
    }
  });

  for (const [folder, least] of [["examples", 9], ["tools/cases", 48], ["black_box/cases", 300]]) {
    test(`every Gerber file of ${folder} that loads`, () => {
      const files = [...filesUnder(folder)].filter(({ bytes }) => kindOf(bytes) === "gerber");
      const canonical = canonicalTexts(files.map(({ bytes }) => bytes));
      let count = 0;
      files.forEach(({ path, bytes }, at) => part(path, () => {
        if (canonical[at] === null) return;
        count++;
        const reading = readAttributes(bytes), again = readAttributes(canonical[at]);
        checkJoined(reading, itemLines(canonical[at]));
        assert.deepEqual([...reading.blocks].map(([number, { heads }]) => [number, heads]),
          [...again.blocks].map(([number, { heads }]) => [number, heads]));
        assert.deepEqual([...reading.apertures.keys()], [...again.apertures.keys()]);
      }));
      assert.ok(count >= least, `${count} files`);
    });
  }

  test("by the answers of the module, blocks too", async () => {
    const browser = await answeringPage();
    const files = ["examples", "tools/cases", "black_box/cases"].flatMap((folder) => [...filesUnder(folder)])
      .filter(({ bytes }) => bytes.length < 1e6 && kindOf(bytes) === "gerber");
    let count = 0;
    for (let at = 0; at < files.length; at += AT_ONCE) {
      const some = files.slice(at, at + AT_ONCE);
      const answers = await browser.ask(`allAnswers(${JSON.stringify(some.map(({ bytes }) => bytes.toString("base64")))})`);
      answers.forEach((answer, which) => part(some[which].path, () => {
        if (answer === null) return;
        count++;
        const reading = readAttributes(some[which].bytes);
        checkJoined(reading, answer.items.split("\n").slice(0, -1));
        const blocks = blocksOf(answer.entries.split("\n"));
        assert.deepEqual([...reading.blocks.keys()], [...blocks.keys()]);
        for (const [number, lines] of blocks) checkJoined(reading.blocks.get(number), lines, `object of block ${number}`);
      }));
    }
    assert.ok(count > 300, `${count} files`);
  });

  test("the pads of a board", () => {
    const { items } = readAttributes(readFileSync(join(EXAMPLES, "kicad", "nightlight-F_Cu.gbr")));
    assert.deepEqual(items.slice(0, 4).map(({ attributes }) => [named(attributes, ".P").fields, named(attributes, ".N").fields]),
      [[["J1", "1", "Pin_1"], ["+5V"]], [["J1", "2", "Pin_2"], ["GND"]], [["R1", "1"], ["+5V"]], [["R1", "2"], ["Net-(D1-A)"]]]);
  });
});

// Names that a file gives, which the converters look up: none is found that is not theirs, as each object of JavaScript has a
// `constructor`. And what is missing in a file is refused.

import assert from "node:assert/strict";
import { suite, test } from "./harness.js";
import { latin1, latin1Bytes } from "../../web/bytes/text.js";
import { convertDrill } from "../../web/convert/drill/convert.js";
import { convertGerber } from "../../web/convert/gerber/convert.js";
import { refusalText } from "../../web/convert/report.js";

const NAMES = ["constructor", "toString", "hasOwnProperty"];

const scaledMacro = (name) => `%FSLAX24Y24*%\n%MOMM*%\n%AM${name}*1,1,$1,$2,0*%\n%ADD10${name},1X3*%\n%LS0.5*%\nD10*\nX1Y1D03*\nM02*\n`;

function written({ bytes, refusals }) {
  assert.deepEqual(refusals.map(refusalText), []);
  return latin1(bytes);
}

suite("names of files", () => {
  test("of macros are none of the standard's templates: a macro is scaled with its places", () => {
    const plain = written(convertGerber(latin1Bytes(scaledMacro("Dot")), { nearest: true }));
    assert.match(plain, /1,1,0\.5,1\.5,0\*/);
    for (const name of NAMES) {
      assert.equal(written(convertGerber(latin1Bytes(scaledMacro(name)), { nearest: true })), plain.replaceAll("Dot", name));
    }
  });

  test("of zeros in KiCad's comment are those that it has", () => {
    const text = (zeros) => `M48\n;FORMAT={3:3/ absolute / metric / ${zeros}}\nMETRIC\nT1C0.8\n%\nT1\nX1234Y1234\nX12Y12\nM30\n`;
    assert.match(written(convertDrill(latin1Bytes(text("suppress leading zeros")))), /X0\.012Y0\.012/);
    for (const name of NAMES) {
      const { bytes, refusals } = convertDrill(latin1Bytes(text(name)));
      assert.equal(bytes, null);
      assert.match(refusals.map(refusalText).join("\n"), /^form: which zeros are left out is not given/);
    }
  });

  test("a draw by a hull before any format is refused", () => {
    const { bytes, refusals } = convertGerber(latin1Bytes("%MOMM*%\n%ADD10O,1X2*%\nD10*\nD01*\nM02*\n"), { nearest: true });
    assert.equal(bytes, null);
    assert.deepEqual(refusals.map(refusalText), ["line 4: a draw before the format (%FS..*%): choose RS-274X"]);
  });
});

// The first page of each floor: its example runs, and prints what stands there.

import assert from "node:assert/strict";
import { existsSync, readFileSync } from "node:fs";
import { dirname, join } from "node:path";
import { fileURLToPath, pathToFileURL } from "node:url";
import { suite, test } from "../../tools/tests/harness.js";

const WEB = dirname(dirname(fileURLToPath(import.meta.url)));
const FLOORS = readFileSync(join(WEB, "floors.txt"), "utf8").split("\n").filter((line) => line && !line.startsWith("#"))
  .map((line) => line.split(":")[0]);
// The package has an example of its own (test_package.js), nothing of module/ is imported, and tools/ has pages of its own.
const OTHERS = ["package", "module", "tools"];

// The lines of the example on a floor's first page: of its index, where it has one, else of its README.
function exampleOf(floor) {
  const index = join(WEB, floor, "index.js"), page = existsSync(index) ? index : join(WEB, floor, "README.md");
  const text = readFileSync(page, "utf8");
  if (page !== index) return /^```js\n([\s\S]*?)^```$/m.exec(text)[1].split("\n").filter((line) => line);
  const [head] = text.split("\n\n");
  return head.split("\n").filter((line) => line.startsWith("//     ")).map((line) => line.slice(7));
}

// What each line says that it comes to is compared. The functions that need names of the example are made of its text, in order.
async function run(floor) {
  const names = {}, checks = [];
  const Async = (async () => {}).constructor;
  const body = [];
  for (const line of exampleOf(floor)) {
    const imported = /^import \{ ([^}]*) \} from "(\.[^"]*)";$/.exec(line);
    if (imported) {
      const module = await import(pathToFileURL(join(WEB, floor, imported[2])).href);
      for (const name of imported[1].split(", ")) {
        assert.ok(name in module, `${floor}: ${imported[2]} does not export ${name}`);
        names[name] = module[name];
      }
      continue;
    }
    const told = /^(?!const )(.*); \/\/ (.*)$/.exec(line);
    body.push(told ? `told(${JSON.stringify(line)}, ${told[1]}, ${told[2]});` : line);
  }
  await new Async("told", ...Object.keys(names), body.join("\n"))((line, is, wanted) => {
    assert.deepEqual(is, wanted, `${floor}: ${line}`);
    checks.push(line);
  }, ...Object.values(names));
  return checks.length;
}

suite("floors", () => {
  for (const floor of FLOORS.filter((name) => !OTHERS.includes(name))) {
    test(`the example of ${floor} runs`, async () => {
      assert.ok(await run(floor) > 0, `${floor}: the example comes to nothing`);
    });
  }
});

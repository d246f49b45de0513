// Walks at random over the page, from the seeds that are kept: 500 gestures. docs/fuzzing.md describes them.

import assert from "node:assert/strict";
import { program } from "./support.js";
import { suite, test } from "../../tools/tests/harness.js";
import { keptSeeds, toldFault, walked } from "./walk.js";

const GESTURES = 100;

suite("a walk at random", () => {
  for (const seed of keptSeeds()) {
    test(`${GESTURES} gestures of the seed ${seed}`, async () => {
      process.env.CAMPLOT = program();
      const { made, faults } = await walked([seed], GESTURES);
      assert.equal(faults.length, 0, faults.map(toldFault).join("\n"));
      assert.equal(made, GESTURES);
    });
  }
});

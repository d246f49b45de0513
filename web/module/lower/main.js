// Rewrites a linked wasm64 module for browsers and nodes whose memories have addresses of 32 bits (Safari, node 18).
//
//   node web/module/lower/main.js IN.wasm OUT.wasm

import { readFileSync, writeFileSync } from "node:fs";
import { lowered } from "./sections.js";

const [from, to] = process.argv.slice(2);
if (!from || !to) {
  console.error("usage: node web/module/lower/main.js IN.wasm OUT.wasm");
  process.exit(2);
}
const { bytes, functions } = lowered(readFileSync(from));
writeFileSync(to, bytes);
console.log(`${to}: ${functions} functions for a memory of 32 bits`);

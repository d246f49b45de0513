// A page for tests: stations of modules without a worker, which serve whole scripts over files in memory.

import { Station } from "../station/station.js";
import { differencesOf } from "./scripts.js";
import { unpacked } from "../page/contents.js";

const modules = [...document.querySelectorAll("script[data-module]")].map(async (element) =>
  [element.dataset.module, await WebAssembly.compile(await unpacked(element.textContent))]);

Promise.all(modules).then((made) => {
  const compiled = new Map(made);
  // The module whose memory has so many bits.
  globalThis.differencesOf = (bits, cases) => differencesOf(compiled.get(String(bits)), cases);
  globalThis.compiled = compiled.get("32");
  globalThis.Station = Station;
  document.body.dataset.ready = "yes";
});

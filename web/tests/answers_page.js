// A page for tests: what the module's station answers of Gerber files.

import { Station } from "../station/station.js";
import { asked } from "../station/asking.js";
import { unpacked } from "../page/contents.js";

const decoded = (text) => Uint8Array.from(atob(text), (letter) => letter.charCodeAt(0));
const encoded = (text) => new TextEncoder().encode(text);
const MOST_ITEMS = 4294967295;

let compiled = null;

// The answers to `items` and `entries` of a file as base64; null where it is refused.
function answersOf(file) {
  const station = new Station(compiled, 1);
  try {
    if (station.apply(encoded("load a gerber f"), decoded(file))) return null;
    const [items, entries] = [`items a 0 ${MOST_ITEMS}`, "entries a"].map((question) => asked(station, question));
    if (items.code || entries.code) throw new Error(`refused ${items.code} ${entries.code}`);
    return { items: items.answer, entries: entries.answer };
  } finally {
    station.close();
  }
}

globalThis.allAnswers = (files) => files.map(answersOf);

unpacked(document.getElementById("module").textContent).then(WebAssembly.compile).then((made) => {
  compiled = made;
  document.body.dataset.ready = "yes";
});

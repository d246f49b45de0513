// The floor of the station: the calls of the module (include/camplot.h) over its memory, and questions by their words.
//
// It is not the package that others install (web/package), and it starts no worker. It does not know what an answer is for.
//
// A call answers the number of a refusal, or 0; bytes lie in `reply` and `file` until the next call. Questions and answers are
// those of docs/questions.md. This runs without the module:
//
//     import { headOf, linesOf } from "./index.js";
//     headOf("draw 10 0 0 1000000 0 r0 dark"); // { kind: "draw", number: 10 }
//     const station = { ask: () => 0, file: new TextEncoder().encode("top gerber 3 1\n") };
//     linesOf(station, "layers"); // ["top gerber 3 1"]

export { asked, headOf, inside, itemsOf, linesOf, look } from "./asking.js";
export { Station } from "./station.js";

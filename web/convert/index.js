// The floor of conversions: Gerber and drill files of other forms, written so that the station reads them and they mean the same.
//
// It is not a repair: what can't be written exactly is refused with its line, unless a choice allows it. It asks nobody; who calls
// it makes the choices (`CHOICES`).
//
// A conversion is { bytes, changes, refusals }: `bytes` are null where a line is refused, and a change is { line, what }.
//
//     import { convertDrill, toldChanges } from "./index.js";
//     const { bytes } = convertDrill(new TextEncoder().encode("M48\nMETRIC,LZ\nT01C0.800\n%\nT01\nX001Y002\nM30\n"));
//     new TextDecoder().decode(bytes); // "M48\nMETRIC\nT1C0.8\n%\nG05\nT1\nX1.0Y2.0\nM30\n"
//     toldChanges([{ line: 2, what: "the unit" }]); // ["line 2: the unit"]

export { CHOICES, askedChoices, choiceWords, waysToConvert } from "./choices.js";
export { digitsOf, toolOf } from "./drill/choices.js";
export { convertDrill } from "./drill/convert.js";
export { convertGerber } from "./gerber/convert.js";
export { Failure, refusalText, toldChanges, toldRefusals } from "./report.js";

/** @typedef {import("./choices.js").Choice} Choice */
/** @typedef {import("./choices.js").Chosen} Chosen */
/** @typedef {import("./report.js").Refusal} Refusal */

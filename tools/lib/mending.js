// What makes a refused file one that loads: a converter under its choices, which are tried.

import { CHOICES, Failure, askedChoices, convertDrill, convertGerber, refusalText, waysToConvert } from "../../web/convert/index.js";
import { GERBER } from "../../web/board/index.js";
import { AskedLayer } from "./asked_layer.js";
import { CONVERTERS } from "./converting.js";
import { called } from "./places.js";
import { quoted } from "./shell.js";

/** @typedef {import("../../web/convert/index.js").Chosen} Chosen */

// A file of the kind under some choices: its bytes, or why it is refused.
/** @param {"gerber" | "drill"} kind @param {Uint8Array} bytes @param {Chosen} choices @returns {{made: Uint8Array | null, texts: string[]}} */
function convertedBy(kind, bytes, choices) {
  try {
    const { bytes: made, refusals } = kind === GERBER ? convertGerber(bytes, { nearest: false, repeat: false, ...choices })
      : convertDrill(bytes, { tools: [], ...choices });
    return made && !refusals?.length ? { made, texts: [] } : { made: null, texts: refusals.map(refusalText) };
  } catch (fault) {
    if (!(fault instanceof Failure)) throw fault;
    return { made: null, texts: [fault.message] };
  }
}

// The words of a call that chooses so.
/** @param {"gerber" | "drill"} kind @param {Chosen} choices */
function wordsOf(kind, choices) {
  return CHOICES[kind].filter(({ name }) => name in choices)
    .map(({ name, option }) => (choices[name] === true ? option : `${option} ${choices[name]}`));
}

/**
 * How a refused file becomes one that loads, in a line; null where no converter helps.
 * @param {"gerber" | "drill"} kind
 * @param {Uint8Array} bytes
 * @param {string} path what the file is called in a call
 * @returns {string | null}
 */
export function mended(kind, bytes, path) {
  const call = [called(CONVERTERS[kind].tool), quoted(path)];
  const ways = waysToConvert((choices) => {
    const { made, texts } = convertedBy(kind, bytes, choices);
    return made ? null : askedChoices(kind, texts);
  }).filter((choices) => {
    const { made } = convertedBy(kind, bytes, choices);
    return made !== null && new AskedLayer(kind, made).isLoaded;
  });
  if (ways.length) return `it loads after ${ways.map((choices) => [...call, ...wordsOf(kind, choices)].join(" ")).join(", or after ")}`;
  const asked = askedChoices(kind, convertedBy(kind, bytes, {}).texts);
  if (!asked.length) return null;
  const options = asked.map(({ option, value, example, values }) => {
    return [option, values ? values.map(([word]) => word).join("|") : example?.split(" ")[0] ?? value].filter((part) => part).join(" ");
  });
  return `it may load after ${[...call, ...options].join(" ")}`;
}

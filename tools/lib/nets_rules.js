// The rules of a house: their limits by a file and by the words of a call, and what breaks them in lines.

import { utf8 } from "../../web/bytes/index.js";
import { refusalText } from "../../web/convert/index.js";
import { RULES, mm, readRules, takeRule } from "../../web/nets/index.js";
import { Call, Failure } from "./command.js";
import { readBytes } from "./files.js";

/**
 * The limits in nm, by the rules' names: those of a file, and over them those of the call.
 * @param {string | null} path
 * @param {string[]} words as `ring=0.13`
 * @returns {Map<string, number>}
 */
export function limitsOf(path, words) {
  /** @type {ReturnType<typeof readRules>} */
  const { limits, refusals } = path === null ? { limits: new Map(), refusals: [] } : readRules(utf8(readBytes(path)));
  if (refusals.length) throw new Failure(refusals.map((refusal) => `${path}: ${refusalText(refusal)}`).join("\n"));
  for (const rule of words) {
    const fault = takeRule(limits, rule);
    if (fault !== null) throw new Call(`--rule ${rule}: ${fault}`);
  }
  return limits;
}

/**
 * How many places break each rule, in a line; `unchecked` has those that are not checked on some side.
 * @param {import("../../web/nets/index.js").Breach[]} breaches
 * @param {Map<string, number>} limits
 * @param {import("../../web/nets/index.js").Unchecked[]} unchecked
 */
export function rulesSummary(breaches, limits, unchecked) {
  return [...limits].map(([rule, limit]) => {
    const { title = rule, isMost = false } = RULES.get(rule) ?? {};
    const count = breaches.filter((breach) => breach.rule === rule).length, isPartly = unchecked.some((other) => other.rule === rule);
    return `${title} of ${mm(limit)} mm: ${count ? `${count} ${isMost ? "more" : "less"}` : isPartly ? "kept, as far as it is checked" : "kept"}`;
  }).join("; ");
}

// The findings of a check as a person sees them: by kind, the worst first, then what was accepted, what is gone, and copper without a
// point. Nothing here is a part of the page: it makes plain values.

import { AcceptedFindings, KINDS, RULES, isSame, mm } from "../nets/index.js";

/** @typedef {import("../nets/index.js").Finding} Finding */
/** @typedef {import("../nets/index.js").Kept} Kept */

/**
 * Findings of a kind.
 * @typedef {{kind: string, title: string, findings: Finding[]}} Group
 *
 * What a check found, beside what was accepted.
 * @typedef {object} Sorted
 * @property {Group[]} groups those that are not accepted
 * @property {{finding: Finding, by: Kept}[]} accepted
 * @property {Kept[]} gone what was accepted and is not found any more; of rules that were checked alone
 * @property {string} summary
 */

const OF_NETS = ["short", "open", "no copper"];
/** @type {Record<string, string>} */
const TITLES = { short: "Shorts", open: "Opens", "no copper": "Points without copper" };

/** @param {number} count @param {string} what @param {string} many */
const counted = (count, what, many = `${what}s`) => `${count} ${count === 1 ? what : many}`;

/** @param {string} kind @param {Map<string, number>} limits */
function titleOf(kind, limits) {
  const rule = RULES.get(kind);
  if (!rule) return TITLES[kind] ?? kind;
  return `${rule.title.slice(0, 1).toUpperCase()}${rule.title.slice(1)}, ${rule.isMost ? "more" : "less"} than ${mm(limits.get(kind) ?? 0)} mm`;
}

// A kind is looked for where it was checked: nets where there are points, a rule where it has a limit.
/** @param {Pick<Machine.Findings, "limits" | "points">} found @param {string} kind */
const isChecked = ({ limits, points }, kind) => OF_NETS.includes(kind) ? points > 0 : limits.some(([rule]) => rule === kind);

/**
 * @param {Machine.Findings} found
 * @param {Kept[]} accepted
 * @returns {Sorted}
 */
export function sorted(found, accepted) {
  const known = new AcceptedFindings(accepted), limits = new Map(found.limits);
  /** @type {Map<string, Finding[]>} */
  const open = new Map(KINDS.map((kind) => [kind, []]));
  /** @type {Sorted["accepted"]} */
  const kept = [];
  const used = new Set();
  for (const finding of found.findings) {
    const by = known.of(finding.kept);
    if (!by) open.get(finding.kind)?.push(finding);
    else {
      kept.push({ finding, by });
      used.add(by);
    }
  }
  const groups = [...open].flatMap(([kind, findings]) => (findings.length ? [{ kind, title: titleOf(kind, limits), findings }] : []));
  return { groups, accepted: kept, gone: accepted.filter((own) => !used.has(own) && isChecked(found, own.kind)), summary: summaryOf(found, open, limits) };
}

/**
 * What was found in a sentence: the nets where there is something to compare with, and each rule that was checked.
 * @param {Machine.Findings} found
 * @param {Map<string, Finding[]>} open
 * @param {Map<string, number>} limits
 */
function summaryOf({ points, loose, unchecked }, open, limits) {
  const count = (/** @type {string} */ kind) => open.get(kind)?.length ?? 0;
  const nets = points ? [`${counted(count("open"), "open")}, ${counted(count("short"), "short")}, ${counted(count("no copper"), "point")} without copper, `
    + `${counted(loose.length, "piece")} of copper without a point`] : [];
  const rules = [...limits.keys()], broken = rules.filter((rule) => count(rule)), partly = new Set(unchecked.map(({ rule }) => rule));
  const places = broken.reduce((sum, rule) => sum + count(rule), 0), kept = rules.filter((rule) => !count(rule) && !partly.has(rule)).length;
  const told = rules.length ? [`${counted(broken.length, "rule")} of ${rules.length} broken at ${counted(places, "place")}, ${kept} kept`] : [];
  return [...nets, ...told].join("; ");
}

// Words in one line.
/** @param {string} words */
const inLine = (words) => words.replace(/\s+/g, " ").trim();

/**
 * What was accepted, with one more finding; or why it is not.
 * @param {Kept[]} accepted
 * @param {Kept} finding
 * @param {string} reason
 * @param {string} by
 * @returns {{accepted: Kept[], why: string | null}}
 */
export function withAccepted(accepted, finding, reason, by) {
  const [why, who] = [reason, by].map(inLine);
  if (!why) return { accepted, why: "A finding is accepted with a reason." };
  if (!who) return { accepted, why: "A finding is accepted with the name of who accepts it." };
  return { accepted: [...accepted.filter((own) => !isSame(own, finding)), { ...finding, reason: why, by: who }], why: null };
}

/**
 * What was accepted without a finding.
 * @param {Kept[]} accepted
 * @param {Kept} finding
 */
export const withoutAccepted = (accepted, finding) => accepted.filter((own) => !isSame(own, finding));

/**
 * What was accepted, with that of a file; the file's counts where both have a finding.
 * @param {Kept[]} accepted
 * @param {Kept[]} others
 */
export function joinedAccepted(accepted, others) {
  const known = new AcceptedFindings(others);
  return [...accepted.filter((own) => !known.of(own)), ...others];
}

/**
 * An accepted finding in a line.
 * @param {Kept} kept
 */
export const keptWords = ({ kind, nets, layer }) => `${RULES.get(kind)?.title ?? kind}: ${nets.join(" and ")} on ${layer}`;

/**
 * Who accepted it and why.
 * @param {Kept} kept
 */
export const whoWords = ({ reason, by }) => `${reason}${by ? ` (${by})` : ""}`;

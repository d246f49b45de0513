// Limits of rules to choose from: the files docs/rules, docs/rules_6mil, docs/rules_5mil and docs/rules_4mil, without their comments.
// They are examples, and no house's.

/** @type {[name: string, text: string][]} */
export const RULE_FILES = [
  ["example", "ring 0.13\ngap 0.15\nwidth 0.15\nhole-copper 0.2\noutline 0.25\nhole-hole 0.25\nmask-web 0.1\nmask-bare 0.05\nsilk-bare 0.1\n"
    + "paste -0.02\nhole-pad 0.05\npad-hole 0.05\ndoubled 0.05\noverlap 0.01\n"],
  ["6/6 mil, example", "ring 6mil\ngap 6mil\nwidth 6mil\nhole-copper 10mil\noutline 12mil\nhole-hole 12mil\nmask-web 5mil\nmask-bare 2mil\n"
    + "silk-bare 5mil\npaste -1mil\nhole-pad 2mil\npad-hole 2mil\ndoubled 2mil\noverlap 0.5mil\n"],
  ["5/5 mil, example", "ring 5mil\ngap 5mil\nwidth 5mil\nhole-copper 8mil\noutline 10mil\nhole-hole 10mil\nmask-web 4mil\nmask-bare 2mil\n"
    + "silk-bare 4mil\npaste -1mil\nhole-pad 2mil\npad-hole 2mil\ndoubled 2mil\noverlap 0.5mil\n"],
  ["4/4 mil, example", "ring 4mil\ngap 4mil\nwidth 4mil\nhole-copper 7mil\noutline 8mil\nhole-hole 8mil\nmask-web 3mil\nmask-bare 1.5mil\n"
    + "silk-bare 3mil\npaste -1mil\nhole-pad 2mil\npad-hole 2mil\ndoubled 2mil\noverlap 0.5mil\n"],
];

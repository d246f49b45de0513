// Netlists for tests: records of every kind with any fields, and what must be read of them.

const pad = (value, size) => String(value).padStart(size, "0");
const signed = (value) => `${value < 0 ? "-" : "+"}${pad(Math.abs(value), 6)}`;

/** The line of a record; a missing part is left as the format has it. */
export function recordOf({ code, net = "N/C", part = "R1", pin = "1", isMid = false, hole = null, isPlated = true, access = 0,
  x, y, width = null, height = null, turn = null, mask = null, span = null }) {
  const drilled = hole === null ? "      " : `D${pad(hole, 4)}${isPlated ? "P" : "U"}`;
  const sides = `${width === null ? "" : `X${pad(width, 4)}`}${height === null ? "" : `Y${pad(height, 4)}`}`;
  const rest = `${turn === null ? "" : `R${pad(turn, 3)}`}${mask === null ? "" : `S${mask}`}`;
  const layers = span === null ? "" : ` L${pad(span[0], 2)}-${pad(span[1], 2)}`;
  return `${code}${net.padEnd(14)}   ${part.padEnd(6)}${pin === "" ? " " : "-"}${pin.padEnd(4)}${isMid ? "M" : " "}${drilled}`
    + `A${pad(access, 2)}X${signed(x)}Y${signed(y)}${sides}${rest}${layers}`;
}

const KINDS = { 317: "through", 327: "surface", 307: "blind", 367: "tooling" };
const UNITS = [2540, 1000, 2540];

/**
 * A netlist with records of each kind, by `chance`, and the points that it has.
 * @param {() => number} chance from 0 to below 1
 * @returns {{text: string, points: object[]}}
 */
export function randomNetlist(chance) {
  const below = (count) => Math.floor(chance() * count), pick = (list) => list[below(list.length)];
  const unit = below(3), nm = UNITS[unit], end = pick(["\n", "\r\n", "\r"]);
  const aliases = Array.from({ length: below(4) }, (_, at) => [`NNAME${at + 1}`, `a name of ${at} far more than 14 characters`]);
  const lines = ["C  a comment", "P  CODE 00", `P  UNITS CUST ${unit}`, "P  JOB any words", ""];
  for (const [alias, name] of aliases) lines.push(`P  ${alias}  ${name}`);
  const points = [];
  const add = (code) => {
    const isSurface = code === 327, [alias, name] = aliases.length && chance() < 0.3 ? pick(aliases) : [null, null];
    const net = pick(["GND", "N/C", "NET-(C1-PAD1)", "A#1", "14CHARACTERS_9"]), first = 1 + below(3);
    const given = { code, net: alias ?? net, part: pick(["R1", "VIA", "U12345", ""]), pin: pick(["", "1", "A12", "1234"]),
      isMid: chance() < 0.5, hole: isSurface ? null : 1 + below(9999), isPlated: chance() < 0.5,
      access: isSurface ? 1 + below(4) : below(5), x: below(2e6) - 1e6 + 1, y: below(2e6) - 1e6 + 1,
      width: pick([null, below(10000)]), height: pick([null, below(10000)]), turn: pick([null, below(361)]),
      mask: pick([null, 0, 1, 2, 3]), span: code === 307 ? [first, first + below(4)] : null };
    lines.push(recordOf(given));
    points.push({ line: lines.length, kind: KINDS[code], net: name ?? (net === "N/C" ? null : net), part: given.part,
      pin: given.pin, isMid: given.isMid, hole: given.hole === null ? null : given.hole * nm,
      isPlated: given.hole !== null && given.isPlated, access: given.access, span: given.span, x: given.x * nm,
      y: given.y * nm, width: (given.width ?? 0) * nm, height: (given.height ?? 0) * nm });
  };
  for (const code of [317, 327, 307, 367]) add(code);
  for (let more = below(20); more > 0; more--) {
    if (chance() < 0.2) lines.push(pick(["C", "C  another", "", "378GND  any", "079 any", "389BOARD_EDGE"]));
    else add(pick([317, 327, 307, 367]));
  }
  return { text: [...lines, "999", ""].join(end), points };
}

const GOOD = { 317: { code: 317, net: "GND", part: "J1", pin: "2", hole: 394, x: 1000, y: -2000, width: 787, height: 787,
  turn: 270, mask: 0 }, 327: { code: 327, net: "VCC", part: "U1", pin: "8", access: 1, x: 1500, y: 2500, width: 610,
  height: 236, turn: 0, mask: 2 }, 307: { code: 307, net: "SCL", part: "VIA", pin: "", hole: 79, access: 1, x: -5, y: 7,
  width: 177, height: 0, turn: 0, mask: 3, span: [1, 2] }, 367: { code: 367, net: "N/C", part: "H1", pin: "1", hole: 1260,
  isPlated: false, x: 0, y: 0, width: 2205, height: 0, turn: 0, mask: 0 } };

const HEAD = ["P  CODE 00", "P  UNITS CUST 0", "P  NNAME1  a long name"];
const at = (line, from, text) => line.slice(0, from) + text + line.slice(from + text.length);

// What is broken in a record: its name, what becomes of a good line, and what must be said of it.
/** @typedef {[name: string, change: (line: string) => string, says: string]} Break of a record */

/** @type {Break[]} */
const BREAKS = [
  ["an unknown code", (line) => at(line, 0, "337"), "there is no record 337"],
  ["another unknown code", (line) => at(line, 0, "037"), "there is no record 037"],
  ["a letter in the code", (line) => at(line, 1, "l"), "begins with none of"],
  ["a line cut short", (line) => line.slice(0, 50), "the place ends in column 57"],
  ["a line of three characters", (line) => line.slice(0, 3), "the line has 3 characters"],
  ["a name too long", (line) => at(line, 3, "A_NAME_OF_15_CH"), "columns 18 to 20"],
  ["an alias of nothing", (line) => at(line, 3, "NNAME2        "), "no line P NNAME.. defines"],
  ["something in place of the dash", (line) => at(line, 26, "+"), "column 27"],
  ["a pin without a dash", (line) => at(line, 26, " 7"), "has no - before it"],
  ["something in place of M", (line) => at(line, 31, "X"), "column 32"],
  ["no place", (line) => at(line, 41, "                "), "columns 42 to 57"],
  ["no X", (line) => at(line, 41, "x"), "columns 42 to 57"],
  ["no Y", (line) => at(line, 49, "Z"), "columns 42 to 57"],
  ["a letter in X", (line) => at(line, 44, "O"), "columns 42 to 57"],
  ["a point in Y", (line) => at(line, 53, "."), "columns 42 to 57"],
  ["two signs", (line) => at(line, 42, "--"), "columns 42 to 57"],
  ["an access of letters", (line) => at(line, 39, "AB"), "columns 39 to 41"],
  ["no A", (line) => at(line, 38, "B"), "columns 39 to 41"],
  ["a letter in the size", (line) => at(line, 59, "O"), "is not a size"],
  ["a turn too great", (line) => at(line, 67, "R361"), "more than 360"],
  ["a mask of 4", (line) => at(line, 72, "4"), "is not a size"],
  ["more behind it", (line) => `${line} more`, "is not a size"],
  ["a control character", (line) => at(line, 5, "\x07"), "the character 7"],
];
/** @type {Break[]} */
const OF_HOLES = [
  ["no hole", (line) => at(line, 32, "      "), "the hole of columns 33 to 38 is missing"],
  ["a letter in the hole", (line) => at(line, 34, "O"), "in place of a hole"],
  ["no plating", (line) => at(line, 37, " "), "in place of a hole"],
  ["a hole without a diameter", (line) => at(line, 33, "0000"), "no diameter"],
];

/** Broken netlists: `{name, text, line, says}`, the line that is refused and a part of what must be said. */
export function brokenNetlists() {
  const broken = [], good = Object.values(GOOD).map(recordOf);
  const add = (name, lines, line, says) => broken.push({ name, text: `${lines.join("\n")}\n`, line, says });
  good.forEach((record, number) => {
    const whole = [...HEAD, ...good, "999"], line = HEAD.length + number + 1, code = record.slice(0, 3);
    for (const [name, change, says] of [...BREAKS, ...(code === "327" ? [] : OF_HOLES)]) {
      add(`${code}: ${name}`, replaced(whole, line - 1, change(record)), line, says);
    }
  });
  const surface = recordOf(GOOD[327]), through = recordOf(GOOD[317]), blind = recordOf(GOOD[307]);
  add("a surface point with a hole", [...HEAD, at(surface, 32, "D0394P"), "999"], 4, "a surface point has a hole");
  add("a surface point from both sides", [...HEAD, at(surface, 39, "00"), "999"], 4, "both sides");
  add("layers that are no span", [...HEAD, blind.replace("L01-02", "L02-01"), "999"], 4, "no span");
  add("layer 0", [...HEAD, blind.replace("L01-02", "L00-01"), "999"], 4, "no span");
  add("units behind a record", [HEAD[0], through, HEAD[1], "999"], 3, "UNITS stands after the first record");
  add("a continuation of nothing", [...HEAD, at(through, 0, "017"), "999"], 4, "no record that 017 goes on with");
  add("unknown units", ["P  UNITS CUST 3", through, "999"], 1, "UNITS CUST 3 is none of");
  add("units of nothing", ["P  UNITS", through, "999"], 1, "is none of");
  add("two units", [...HEAD, "P  UNITS CUST 1", through, "999"], 4, "UNITS stands twice");
  add("an alias of two names", [...HEAD, "P  NNAME1  another", through, "999"], 4, "stands twice, with two names");
  add("an alias without a name", [...HEAD, "P  NNAME9", through, "999"], 4, "has no name");
  add("no end", [...HEAD, through, surface], 5, "without 999");
  add("a line after the end", [...HEAD, through, "999", surface], 6, "after 999");
  add("no point", [...HEAD, "999"], 4, "no point");
  add("an empty file", [""], 1, "without 999");
  add("another file", ["G04 a Gerber file*", "999"], 1, "begins with none of");
  add("binary data", ["P  UNITS CUST 0", "\x00\x01\x02", through, "999"], 2, "the character 0");
  return broken;
}

function replaced(list, index, value) {
  const copy = [...list];
  copy[index] = value;
  return copy;
}

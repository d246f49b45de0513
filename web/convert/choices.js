/**
 * What a person may say of a file that the converters cannot know: the options of tools/to_gerber and tools/to_xnc, and the
 * choices that a page offers, by the kind of file.
 *
 * @typedef {object} Choice
 * @property {string} name  of the value among the converter's options
 * @property {string} option  as commands have it and refusals name it
 * @property {string[]} [old]  earlier names, which commands read still
 * @property {string} label  what a page calls it
 * @property {"switch" | "one" | "text" | "file"} form  a switch; one of `values`; a text; a file
 * @property {[string, string][]} [values]  each with what a page calls it
 * @property {string} [value]  what a command's help calls its value
 * @property {string} [example]  of a text
 * @property {boolean} [isList]  whether it may be given several times
 * @property {string} help  what a command's help says of it
 *
 * @typedef {Record<string, string | true>} Chosen  values of choices by their names
 */

/**
 * What both kinds of files may lack.
 * @type {Record<"unit" | "format" | "zeros", Omit<Choice, "name">>}
 */
const SHARED = {
  unit: { option: "--unit", label: "unit", form: "one", values: [["mm", "mm"], ["inch", "inch"]], value: "UNIT",
    help: "the unit of a file that does not have one" },
  format: { option: "--format", label: "digits before and after the point", form: "text", value: "I.D", example: "2.4",
    help: "how many digits stand before and after the point, in a file that does not tell" },
  zeros: { option: "--zeros", label: "zeros that are written", form: "one", value: "ZEROS",
    values: [["leading", "leading"], ["trailing", "trailing"]],
    help: "the zeros that are written, and not those that are left out" },
};

/** @type {Record<"gerber" | "drill", Choice[]>} */
export const CHOICES = {
  gerber: [
    { name: "nearest", option: "--nearest", label: "to the nearest nm", form: "switch",
      help: "write what has no exact form by the nearest that has one" },
    { name: "unit", ...SHARED.unit },
    { name: "format", ...SHARED.format },
    { name: "zeros", ...SHARED.zeros },
    { name: "arcs", option: "--arcs", label: "arcs", form: "one", value: "ARCS",
      values: [["single", "of one quadrant, without signs"], ["multi", "of any angle, with signs"]],
      help: "arcs of a file with neither G74 nor G75: of one quadrant, I and J without sign, or of any angle" },
    { name: "repeat", option: "--repeat", label: "a point alone repeats flashes and moves", form: "switch",
      help: "coordinates without D01, D02 or D03 repeat the last of these" },
  ],
  drill: [
    { name: "unit", ...SHARED.unit },
    { name: "digits", ...SHARED.format, label: "digits", old: ["--digits"] },
    { name: "zeros", ...SHARED.zeros },
    { name: "report", option: "--report", label: "report of the program", form: "file", value: "REPORT",
      help: "the report that the CAD program wrote with the file" },
    { name: "tools", option: "--tool", label: "diameters", form: "text", value: "N=SIZE", example: "1=0.8mm 2=40mil",
      isList: true, help: "a tool's diameter, in the file's unit or with mm, inch or mil after it" },
  ],
};

const OPTION = /--[a-z]+/g;

/**
 * The choices that refusals name, which help.
 * @param {"gerber" | "drill"} kind
 * @param {string[]} refusals  as the converter tells them, options by their names
 * @returns {Choice[]}
 */
export function askedChoices(kind, refusals) {
  const named = new Set(refusals.flatMap((text) => text.match(OPTION) ?? []));
  return CHOICES[kind].filter(({ option }) => named.has(option));
}

/** @param {Choice} choice @returns {(string | true)[]} */
const valuesOf = ({ form, values }) => (form === "switch" ? [true] : values?.map(([value]) => value) ?? []);

/** How many ways to convert a file are tried at most. */
const MOST_TRIED = 32;

/**
 * The ways to convert a file between which its refusals let a person choose: the sets of switches and of values under
 * which nothing is refused. What is asked for only once another choice is made is found too.
 * @param {(choices: Chosen) => Choice[] | null} askedBy  the choices that the refusals under some choices ask for; null
 *   where nothing is refused
 * @returns {Chosen[]}
 */
export function waysToConvert(askedBy) {
  /** @type {Chosen[]} */
  const ways = [], tried = [{}];
  let count = 0;
  for (const choices of tried) {
    if (count++ >= MOST_TRIED) break;
    const asked = askedBy(choices);
    if (asked === null) {
      ways.push(choices);
      continue;
    }
    const next = asked.find((choice) => !(choice.name in choices) && valuesOf(choice).length > 0);
    if (next !== undefined) {
      tried.push(...valuesOf(next).map((value) => ({ ...choices, [next.name]: value })));
    }
  }
  return ways;
}

/**
 * A choice with its value, in the words of a page: `arcs: of any angle, with signs`.
 * @param {"gerber" | "drill"} kind
 * @param {Chosen} choices
 * @returns {string[]}
 */
export function choiceWords(kind, choices) {
  return CHOICES[kind].filter(({ name }) => name in choices).map(({ name, form, label, values }) => {
    const value = values?.find(([given]) => given === choices[name])?.[1] ?? choices[name];
    return form === "switch" ? label : `${label}: ${value}`;
  });
}

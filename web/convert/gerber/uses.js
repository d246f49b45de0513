/** Flashes and draws with the aperture that is selected, and those that are made for them: turned, scaled, as hulls. */

import { Unsaid } from "../report.js";
import { add, equal, isZero, negate, rational, shown } from "../exact.js";
import { ANEW, NEAREST, PENS, REGIONS } from "./advice.js";
import { partsOf } from "./definitions.js";
import { hullOf, penOf } from "./pens.js";
import { Placing, Rounding } from "./placing.js";
import { MOST_NM, lengthText, macroTexts, placedParts } from "./shapes_written.js";

/** @typedef {import("./state.js").State} State */
/** @typedef {import("./dictionary.js").Aperture} Aperture */
/** @typedef {import("../exact.js").Rational} Rational */

/** @type {Record<string, string>} */
const NAMES = { C: "a circle", R: "a rectangle", O: "an obround", P: "a polygon", AB: "a block" };
const ONE = rational(1n);

/** @param {Aperture} aperture @returns {string} what it is, for messages */
function nameOf({ template, macro, hasHole }) {
  return macro === null ? `${NAMES[template]}${hasHole ? " with a hole" : ""}` : `the macro ${template}`;
}

/**
 * The number with which a flash is written, and the definitions that have to stand before it.
 * @param {import("./state.js").State} state
 * @returns {{number: number, before: string[]}}
 */
export function forFlash(state) {
  const aperture = current(state);
  return aperture.isHopeless || state.isUpright || aperture.isSolidCircle && isOne(state.scale) ? own(aperture) : turned(state, aperture);
}

/**
 * The same of a draw, where camplot draws with the aperture; null where a hull has to be flashed.
 * @param {import("./state.js").State} state
 * @param {boolean} isArc
 * @returns {{number: number, before: string[]} | null}
 */
export function forDraw(state, isArc) {
  const aperture = current(state);
  if (aperture.isHopeless) {
    return own(aperture);
  }
  if (aperture.isSolidCircle) {
    return isOne(state.scale) ? own(aperture) : turned(state, aperture);
  }
  if (aperture.isSolidRectangle && !isArc && isZero(state.turnLeft)) {
    return isOne(state.scale) ? own(aperture) : turned(state, aperture);
  }
  const round = roundPen(state, aperture) ?? solidPen(state, aperture, isArc);
  if (round !== null) {
    return round;
  }
  if (isArc) {
    const advice = aperture.template === "C" ? `${PENS}, ${NEAREST}` : PENS;
    throw new Unsaid(`an arc with aperture ${state.selected}, ${nameOf(aperture)}, which is no solid circle: ${advice}`);
  }
  if (!state.options.nearest) {
    throw new Unsaid(`a draw with aperture ${state.selected}, ${nameOf(aperture)}, which is no solid circle or ` +
      `rectangle: ${PENS}, ${NEAREST}`);
  }
  return null;
}

/**
 * The aperture that is selected.
 * @param {State} state
 */
function current(state) {
  const { aperture } = state;
  if (aperture === null) {
    throw new Unsaid(`a draw or a flash with no aperture selected: ${ANEW}`);
  }
  if (state.isOutdated) {
    throw new Unsaid(`aperture ${state.selected} was defined again since it was selected: select it again where the new ` +
      "one is meant");
  }
  return aperture;
}

const isOne = (/** @type {Rational} */ scale) => equal(scale, ONE);

/** @param {Aperture} aperture @returns {{number: number, before: string[]}} */
function own(aperture) {
  aperture.isUsed = true;
  return { number: aperture.number, before: [] };
}

/**
 * An aperture that is made, once for each key: its number, and its definition where it is new.
 * @param {State} state
 * @param {Aperture} aperture  in whose place it is used
 * @param {string} key
 * @param {(number: number) => string[]} make
 * @returns {{number: number, before: string[]}}
 */
function made(state, aperture, key, make) {
  const { dictionary } = state;
  aperture.isReplaced = true;
  const old = dictionary.made.get(key);
  if (old !== undefined) {
    return { number: old, before: [] };
  }
  const number = dictionary.freeNumber();
  const before = make(number);
  dictionary.made.set(key, number);
  return { number, before };
}

/**
 * The aperture turned by what is left of the turn beyond quarters, and scaled.
 * @param {State} state
 * @param {Aperture} aperture
 */
function turned(state, aperture) {
  const { turnLeft, scale, mirror, lengthUnit } = state;
  if (aperture.template === "AB") {
    throw new Unsaid(`a flash of aperture ${state.selected}, a block, ${settingsText(state)}: plot its objects without a ` +
      "block");
  }
  const turn = mirror === "X" || mirror === "Y" ? negate(turnLeft) : turnLeft;
  return made(state, aperture,  `${keyOf(aperture)} ${fraction(turn)} ${fraction(scale)}`, (number) => {
    const rounding = new Rounding();
    const placing = new Placing(lengthUnit, { turn, scale }, rounding);
    const texts = scaledTemplate(state, aperture, number) ?? advised(`aperture ${state.selected}`, REGIONS, () =>
      macroTexts(number, state.dictionary.nameFor(number), placedParts(partsOf(aperture), placing), lengthUnit));
    state.change(`aperture ${state.selected} ${settingsText(state)} is written as aperture ${number}`, rounding.told());
    return texts;
  });
}

/**
 * What `make` gives; where it cannot, that is told with what it is and what to do about it.
 * @param {string} what
 * @param {string} advice
 * @param {() => string[]} make
 */
function advised(what, advice, make) {
  try {
    return make();
  } catch (error) {
    throw error instanceof Unsaid ? new Unsaid(`${what}: ${error.message}: ${advice}`) : error;
  }
}

/** @param {State} state */
function settingsText({ turnLeft, quarters, scale }) {
  const turn = isZero(turnLeft) ? [] : [`turned by ${shown(add(turnLeft, rational(90 * quarters)))} degrees`];
  return [...turn, ...(isOne(scale) ? [] : [`scaled by ${shown(scale)}`])].join(" and ");
}

const fraction = (/** @type {Rational} */ { n, d }) => `${n}/${d}`;
const keyOf = (/** @type {Aperture} */ aperture) => `${aperture.number}:${aperture.key}`;

/**
 * A template of the standard that is scaled alone.
 * @param {State} state
 * @param {Aperture} aperture
 * @param {number} number
 */
function scaledTemplate({ turnLeft, scale, lengthUnit }, { template, sizes }, number) {
  const isTurned = !isZero(turnLeft) && template !== "C";
  const most = template === "C" ? 2 : template === "R" || template === "O" ? 3 : -1;
  if (isTurned || sizes.length > most) {
    return null;
  }
  const lengths = scaledLengths(sizes, scale, lengthUnit);
  return lengths && [`%ADD${number}${template},${lengths.join("X")}*%`];
}

/**
 * Sizes of a template that are scaled, as they are written; null where one is outside of what camplot reads.
 * @param {Rational[]} sizes
 * @param {Rational} scale
 * @param {"mm" | "inch"} unit
 */
function scaledLengths(sizes, scale, unit) {
  const placing = new Placing(unit, { scale });
  const lengths = sizes.map((size) => placing.length(size));
  return lengths.some((length) => length < 1n || length > MOST_NM) ? null : lengths.map((length) => lengthText(length, unit));
}

/**
 * Of a circle or a rectangle with a hole, the same without it, where the nearest may be written and camplot draws so.
 * @param {State} state
 * @param {Aperture} aperture
 * @param {boolean} isArc
 */
function solidPen(state, aperture, isArc) {
  const { template, sizes } = aperture;
  const own = template === "C" ? 1 : template === "R" ? 2 : 0;
  const isDrawn = own === 1 || own === 2 && !isArc && isZero(state.turnLeft);
  const lengths = isDrawn && state.options.nearest ? scaledLengths(sizes.slice(0, own), state.scale, state.lengthUnit) : null;
  return lengths && made(state, aperture,  `solid ${keyOf(aperture)} ${fraction(state.scale)}`, (number) => {
    state.change(`a draw with aperture ${state.selected}, ${nameOf(aperture)}, is written with aperture ${number}, the ` +
      "same without the hole");
    return [`%ADD${number}${template},${lengths.join("X")}*%`];
  });
}

/**
 * Where a macro is one disc about (0, 0), the circle that it is, which draws the same.
 * @param {State} state
 * @param {Aperture} aperture
 */
function roundPen(state, aperture) {
  if (aperture.macro === null) {
    return null;
  }
  let parts;
  try {
    parts = partsOf(aperture);
  } catch (error) {
    if (error instanceof Unsaid) {
      return null;
    }
    throw error;
  }
  const [part] = parts;
  if (part === undefined || parts.length !== 1 || part.kind !== "disc" || !part.on || !part.at.every(isZero)) {
    return null;
  }
  const lengths = scaledLengths([part.diameter], state.scale, state.lengthUnit);
  return lengths && made(state, aperture,  `circle ${keyOf(aperture)} ${fraction(state.scale)}`, (number) => {
    state.change(`a draw with aperture ${state.selected}, a macro of one disc, is written with the circle ${number}`);
    return [`%ADD${number}C,${lengths[0]}*%`];
  });
}

/**
 * The parts of a pen: of a template the shape without its hole.
 * @param {Aperture} aperture
 */
function partsOfPen(aperture) {
  const parts = partsOf(aperture);
  return aperture.macro === null ? parts.slice(0, 1) : parts;
}

/**
 * The flash of the hull that a straight draw covers; of one of no length, of the pen alone.
 * @param {import("./state.js").State} state
 * @param {[bigint, bigint]} way  from its start to its end, in nm
 * @returns {{number: number, before: string[]}}
 */
export function forHull(state, way) {
  const aperture = current(state), { mirror, quarters, turnLeft, scale, lengthUnit } = state;
  const what = `a draw with aperture ${state.selected}, ${nameOf(aperture)}`;
  const turn = add(rational(90 * quarters), turnLeft);
  const key = `hull ${keyOf(aperture)} ${mirror} ${fraction(turn)} ${fraction(scale)}`;
  const rounding = new Rounding();
  /** @type {ReturnType<typeof penOf>} */
  let pen;
  try {
    pen = penOf(partsOfPen(aperture), new Placing(lengthUnit, { turn, scale, mirror }, rounding));
  } catch (error) {
    throw error instanceof Unsaid ? new Unsaid(`${what}, which ${error.message}: ${PENS}`) : error;
  }
  state.change(`${what}, is written as a flash of the hull that it covers${aperture.hasHole ? ", without the hole" : ""}`,
    rounding.told());
  return made(state, aperture,  `${key} ${way}`, (number) => {
    const name = state.dictionary.nameFor(number);
    return advised(what, "have it drawn in shorter pieces", () => macroTexts(number, name, hullOf(pen, way), lengthUnit));
  });
}


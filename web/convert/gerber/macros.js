/**
 * Aperture macros: their texts, and what they make of the parameters of an AD, primitive by primitive.
 *
 * @typedef {import("../exact.js").Rational} Rational
 * @typedef {{code: string, fields: Rational[]}} Primitive  its code without leading zeros, and the values behind it
 */

import { decimal, half, add, nearest, decimalText, multiply, rational } from "../exact.js";
import { NoValue, isExpression, valueOf } from "./expressions.js";

const SKIPPED = /[ \t\r\n]/g;
const VARIABLE = /^\$(\d+)=(.*)$/;
/** Bytes that a comment of a macro may not hold. */
const ODD = /[^\t\n\r -~]/g;

export class Macro {
  /**
   * @param {string} name
   * @param {string[]} parts  without skipped bytes, comments and empty ones
   * @param {string} text  as it is written, without %
   */
  constructor(name, parts, text) {
    this.name = name;
    this.parts = parts;
    this.text = text;
    /** What tells whether two macros are the same. */
    this.key = parts.join("*");
    /** Whether it is named before it is defined, so that it is moved there; and whether it is written there. */
    this.isMoved = this.isWritten = false;
  }

  /** @returns {string | null} the first part that is outside the grammar */
  unreadable() {
    return this.parts.find((part) => !isPart(part)) ?? null;
  }

  /**
   * @param {Rational[]} parameters
   * @returns {Primitive[]}
   * @throws {NoValue} where an expression has no value
   */
  primitives(parameters) {
    const variables = new Map(parameters.map((value, place) => [place + 1, value]));
    /** @type {Primitive[]} */
    const primitives = [];
    for (const part of this.parts) {
      const found = VARIABLE.exec(part);
      if (found !== null) {
        const [, number, expression = ""] = found;
        variables.set(Number(number), valueOf(expression, variables));
      } else {
        const [code = "", ...fields] = part.split(",");
        primitives.push({ code: code.replace(/^0+(?=\d)/, ""), fields: fields.map((field) => valueOf(field, variables)) });
      }
    }
    return primitives;
  }

  /** @param {string} name @returns {Macro} the same under another name */
  named(name) {
    return new Macro(name, this.parts, this.text.replace(/^AM[^*]*/, () => `AM${name}`));
  }
}

/** @param {string} part */
function isPart(part) {
  const found = VARIABLE.exec(part);
  if (found !== null) {
    const [, number, expression = ""] = found;
    return Number(number) >= 1 && Number(number) <= 9999 && isExpression(expression);
  }
  const [code = "", ...fields] = part.split(",");
  return /^\d+$/.test(code) && fields.every(isExpression);
}

/**
 * The macro that an AM command defines, and what was changed in it.
 * @param {string} command  without % and its last *
 * @param {(what: string) => void} change
 * @returns {Macro}
 */
export function macroOf(command, change) {
  const [name = "", ...parts] = command.split("*").map((part) =>
    part.trim().startsWith("0") ? part.replace(/^[ \t\r\n]+|[ \t\r\n]+$/g, "") : part.replace(SKIPPED, ""));
  const clean = parts.map((part) => (part.startsWith("0") ? part.replace(ODD, "") : without22(part)));
  if (parts.some((part) => part.startsWith("22,"))) {
    change(`primitive 22 in the macro ${name.slice(2)} is written as 21: the same rectangle`);
  }
  if (parts.some((part, place) => part.startsWith("0") && part !== clean[place])) {
    change(`odd bytes in comments of the macro ${name.slice(2)} are left out`);
  }
  const isKept = name.startsWith("AM") && parts.every((part, place) => part === clean[place]);
  const text = isKept ? command : [`AM${name.slice(2)}`, ...clean.filter((part) => part !== "")].join("*\n");
  return new Macro(name.slice(2), clean.filter((part) => part !== "" && !part.startsWith("0")), text);
}

/**
 * The expression of a centre, half a side from where it starts: its value where both are plain numbers.
 * @param {string} start
 * @param {string} side
 */
function halfSum(start, side) {
  const from = decimal(start);
  const length = decimal(side);
  if (from === null || length === null) {
    return `(${start})+(${side})/2`;
  }
  const decimals = Math.max(...[start, side].map((text) => text.split(".")[1]?.length ?? 0)) + 1;
  const sum = add(from, half(length));
  return decimalText(nearest(multiply(sum, rational(10n ** BigInt(decimals)))), decimals);
}

/**
 * The primitive 22, a rectangle from its lower left, as the same rectangle about its centre, 21.
 * @param {string} part
 */
function without22(part) {
  const fields = part.split(",");
  if (fields[0] !== "22" || (fields.length !== 6 && fields.length !== 7)) {
    return part;
  }
  const [, exposure, width = "", height = "", x = "", y = "", ...rotation] = fields;
  return ["21", exposure, width, height, halfSum(x, width), halfSum(y, height), ...rotation].join(",");
}

export { NoValue };

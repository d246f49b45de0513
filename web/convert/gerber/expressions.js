/**
 * Expressions of aperture macros, by the grammar of the Gerber standard: x and / bind tighter than + and -, and all go
 * left to right. Their values are exact.
 *
 * @typedef {import("../exact.js").Rational} Rational
 */

import { ZERO, add, decimal, divide, isZero, multiply, negate, subtract } from "../exact.js";

const TOKEN = /\d+\.?\d*|\.\d+|\$\d+|[-+xX/()]/g;
const MOST_PARENTHESES = 64;

/** Thrown where an expression is outside the grammar, or divides by 0. */
export class NoValue extends Error {}

/**
 * @param {string} text
 * @param {Map<number, Rational>} variables  one that is missing is 0
 * @returns {Rational}
 * @throws {NoValue}
 */
export function valueOf(text, variables) {
  const plain = decimal(text);
  if (plain !== null) {
    return plain;
  }
  const tokens = text.match(TOKEN) ?? [];
  if (tokens.length === 0 || tokens.join("") !== text) {
    throw new NoValue(text);
  }
  const reader = new Reader(tokens, variables);
  const value = reader.sum(0);
  if (reader.place < tokens.length) {
    throw new NoValue(text);
  }
  return value;
}

class Reader {
  /** @param {string[]} tokens @param {Map<number, Rational>} variables */
  constructor(tokens, variables) {
    this.tokens = tokens;
    this.variables = variables;
    this.place = 0;
  }

  /**
   * Whether the next token is one of these, which is then passed.
   * @param {string} signs
   * @returns {string} the token; nothing where it is none of them
   */
  passes(signs) {
    const token = this.tokens[this.place];
    if (token === undefined || !signs.includes(token)) {
      return "";
    }
    this.place += 1;
    return token;
  }

  /** @param {number} depth @returns {Rational} */
  sum(depth) {
    let total = this.product(depth);
    for (let sign = this.passes("+-"); sign !== ""; sign = this.passes("+-")) {
      const term = this.product(depth);
      total = sign === "+" ? add(total, term) : subtract(total, term);
    }
    return total;
  }

  /** @param {number} depth @returns {Rational} */
  product(depth) {
    let total = this.factor(depth);
    for (let sign = this.passes("xX/"); sign !== ""; sign = this.passes("xX/")) {
      const factor = this.factor(depth);
      if (sign === "/" && isZero(factor)) {
        throw new NoValue("a division by 0");
      }
      total = sign === "/" ? divide(total, factor) : multiply(total, factor);
    }
    return total;
  }

  /** @param {number} depth @returns {Rational} */
  factor(depth) {
    let isNegative = false;
    for (let sign = this.passes("+-"); sign !== ""; sign = this.passes("+-")) {
      isNegative = isNegative !== (sign === "-");
    }
    const value = this.atom(depth);
    return isNegative ? negate(value) : value;
  }

  /** @param {number} depth @returns {Rational} */
  atom(depth) {
    const token = this.tokens[this.place++];
    if (token === "(" && depth < MOST_PARENTHESES) {
      const value = this.sum(depth + 1);
      if (this.passes(")") === "") {
        throw new NoValue("a parenthesis");
      }
      return value;
    }
    if (token?.startsWith("$")) {
      return this.variables.get(Number(token.slice(1))) ?? ZERO;
    }
    const value = decimal(token ?? "");
    if (value === null) {
      throw new NoValue(token ?? "the end");
    }
    return value;
  }
}

/** @param {string} text @returns {boolean} whether a text is an expression, whatever its variables are */
export function isExpression(text) {
  try {
    valueOf(text, new Map());
    return true;
  } catch (error) {
    return error instanceof NoValue && error.message === "a division by 0";
  }
}

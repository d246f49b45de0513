// Boxes with sides at whole nm, from what a station answers to `box`.

import { boxOf } from "./items.js";

/** @typedef {{left: number, low: number, right: number, high: number}} Box */

/**
 * The least such box around the one of an answer, whose sides may lie at half nm.
 * @param {string | undefined} line
 * @returns {Box | null} null where nothing is painted
 */
export function boxFrom(line) {
  const box = boxOf(line ?? "");
  return box && { left: Math.floor(box.left), low: Math.floor(box.low), right: Math.ceil(box.right), high: Math.ceil(box.high) };
}

/**
 * The least box around boxes.
 * @param {(Box | null)[]} boxes null where one holds nothing
 * @returns {Box | null}
 */
export function joined(boxes) {
  return boxes.reduce((one, other) => one && other ? { left: Math.min(one.left, other.left), low: Math.min(one.low, other.low),
    right: Math.max(one.right, other.right), high: Math.max(one.high, other.high) } : one ?? other, null);
}

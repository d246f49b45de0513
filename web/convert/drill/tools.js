// The tools of an Excellon drill file and their diameters.

import { Unsaid } from "../report.js";
import { MM, inMm, lengthOf, lengthText, sizeOf } from "./lengths.js";

const LEAST_MM = 1e-6, MOST_MM = 200;
const MOST_NUMBER = 9999;

/** Feeds, speeds and hit limits, which move no hole. */
export const FEEDS = new Set("FSBHZ");

/**
 * The number of a tool's text.
 * @param {string} text
 * @returns {number} 0 where it is 0
 * @throws {Unsaid}
 */
export function toolNumber(text) {
  if (!/^\d+$/.test(text) || Number(text) > MOST_NUMBER) {
    throw new Unsaid(`T${text} is no number of a tool from 1 to ${MOST_NUMBER}: choose another`);
  }
  return Number(text);
}

/**
 * A diameter that camplot reads.
 * @param {number} diameter in 10^-9 units
 * @param {string} unit
 * @param {string} shown what it is called where it is refused
 * @returns {number} the same
 * @throws {Unsaid} where it is outside 1 nm to 200 mm
 */
export function allowedDiameter(diameter, unit, shown) {
  const mm = inMm(diameter, unit);
  if (!(mm >= LEAST_MM && mm <= MOST_MM)) {
    throw new Unsaid(`${shown}: a diameter outside 1 nm to 200 mm: give another by --tool`);
  }
  return diameter;
}

/**
 * The diameter of a tool by what the file tells of it.
 * @param {number} number
 * @param {string | undefined} size what stands behind C
 * @param {import("./hints.js").ToldTool | undefined} told by a comment or a report
 * @param {"mm" | "inch"} unit the file's
 * @returns {{diameter: number, source: string | null}} in 10^-9 units; the source where it is a comment or a report
 * @throws {Unsaid}
 */
export function diameterOf(number, size, told, unit) {
  const advice = `give it as --tool ${number}=0.8${unit}`;
  if (size === undefined) {
    if (!told) throw new Unsaid(`T${number} has no diameter: ${advice}`);
    const diameter = sizeOf(told.diameter, told.unit, unit);
    return { diameter: allowedDiameter(diameter, unit, `T${number} of ${told.source}`), source: told.source };
  }
  const shown = `T${number}C${size}`;
  if (!size.includes(".")) throw new Unsaid(`${shown}: a diameter without a point may be of any size: ${advice}`);
  return { diameter: allowedDiameter(lengthOf(size, null, null), unit, shown), source: null };
}

/**
 * A line that declares a tool.
 * @param {number} number
 * @param {number} diameter in 10^-9 units
 */
export function declarationText(number, diameter) {
  return `T${number}C${lengthText(diameter)}`;
}

/**
 * The line of a unit.
 * @param {"mm" | "inch"} unit
 */
export function unitLine(unit) {
  return unit === MM ? "METRIC" : "INCH";
}

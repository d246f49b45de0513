// What is caught, which may be anything: its words, and what the system tells of a fault of its own.

/**
 * Whether a fault is one whose message tells it. One of the system has a code too, as `EEXIST`, and its call; and one that ends
 * a run which writes many files the `files` of it, in lines (series.js).
 * @param {unknown} fault
 * @returns {fault is Error & {code?: unknown, errno?: unknown, syscall?: unknown, path?: unknown, files?: unknown}}
 */
export const isFault = (fault) => fault instanceof Error;

/**
 * The system's name of a fault, as `EEXIST`; null of any other.
 * @param {unknown} fault
 */
export const codeOf = (fault) => (isFault(fault) && typeof fault.code === "string" ? fault.code : null);

/**
 * What a fault says.
 * @param {unknown} fault
 */
export const messageOf = (fault) => (isFault(fault) ? fault.message : String(fault));

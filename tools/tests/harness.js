// The tests of the tools: each file test_*.js names its tests as it is loaded; run.js runs them one after another.

/** @typedef {{name: string, run: () => unknown, id?: string}} Test its id has its file's name too */

/** @type {Test[]} */
export const tests = [];
let prefix = "";
/** @type {(() => unknown)[]} */
let cleanups = [];

/** Thrown by `skip`. */
export class Skipped extends Error {}

/**
 * Tests that belong together.
 * @param {string} name
 * @param {() => void} body names the tests
 */
export function suite(name, body) {
  const before = prefix;
  prefix = `${prefix}${name}: `;
  body();
  prefix = before;
}

/**
 * A test, which passes where it throws nothing.
 * @param {string} name
 * @param {() => unknown} run
 */
export function test(name, run) {
  tests.push({ name: `${prefix}${name}`, run });
}

/**
 * Leaves the running test out.
 * @param {string} why
 */
export function skip(why) {
  throw new Skipped(why);
}

/**
 * A part of a test: where it throws, its label is told.
 * @param {string} label
 * @param {() => T} run
 * @returns {T}
 * @template T
 */
export function part(label, run) {
  /** @type {(fault: Error) => never} */
  const told = (fault) => {
    if (!(fault instanceof Skipped)) fault.message = `${label}: ${fault.message}`;
    throw fault;
  };
  try {
    const result = run();
    return result instanceof Promise ? /** @type {T & Promise<*>} */ (result.catch(told)) : result;
  } catch (fault) {
    return told(fault);
  }
}

/**
 * What is to be done once the running test ended, however it ended.
 * @param {() => unknown} act
 */
export function afterwards(act) {
  cleanups.push(act);
}

/**
 * Runs a test, and what it asked for afterwards.
 * @param {Test} test
 */
export async function runTest({ run }) {
  cleanups = [];
  try {
    await run();
  } finally {
    for (const act of cleanups.reverse()) await act();
  }
}

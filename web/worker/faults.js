// Why something failed, in words.

/** @param {unknown} fault */
export const faultWords = (fault) => fault instanceof Error ? fault.message : String(fault);

// A message of a kind that there is not.
/** @param {never} message @returns {never} */
export function unknown(message) {
  throw new Error(`no such message: ${JSON.stringify(message)}`);
}

// What all commands share: the words of a call, what is printed, and the exit status.

import { Failure } from "../../web/convert/index.js";
import { Call, parsed } from "./calls.js";
import { isFault } from "./faults.js";
import { reasonOf, writtenFiles } from "./files.js";
import { beginOutput, complain, leave, say } from "./output.js";

export { Call, Failure, complain, say };

/** Exit statuses: done; done, but something was refused; nothing could be done. (output.js has one more.) */
export const DONE = 0, REFUSED = 1, FAILED = 2;

// What was written before a fault, and what was not.
/** @param {string} name @param {unknown} fault */
function tellWritten(name, fault) {
  const written = writtenFiles(), files = isFault(fault) && Array.isArray(fault.files) ? fault.files : [];
  if (written.length) complain(`${name}: written before: ${written.join(", ")}`);
  for (const line of files) complain(`${name}: ${line}`);
}

/**
 * Tells why a call or a file of it cannot be used, or prints the text that was asked for.
 * @param {Calls.Command} command
 * @param {string} name
 * @param {unknown} fault
 * @returns {number} the exit status
 */
function toldFault({ tool }, name, fault) {
  if (fault instanceof Call && fault.isAsked) {
    say(fault.message);
    return DONE;
  }
  if (fault instanceof Call) complain(`${name}: ${fault.message}; ${tool} --help lists the options`);
  else if (fault instanceof Failure) complain(`${name}: ${fault.message}`);
  else if (isFault(fault) && fault.syscall) complain(`${name}: ${[fault.path, reasonOf(fault)].filter((part) => part).join(": ")}`);
  else throw fault;
  tellWritten(name, fault);
  return FAILED;
}

/**
 * Does something with each file of a call. Of several, one that cannot be used is told, and the others follow.
 * @param {string} tool
 * @param {string[]} files
 * @param {(file: string) => number} act gives an exit status
 * @returns {number} the greatest of these
 */
export function withEach(tool, files, act) {
  let status = DONE;
  for (const file of files) {
    try {
      status = Math.max(status, act(file));
    } catch (fault) {
      if (!(fault instanceof Failure) || files.length === 1) throw fault;
      complain(`${tool}: ${fault.message.startsWith(file) ? "" : `${file}: `}${fault.message}`);
      status = FAILED;
    }
  }
  return status;
}

/**
 * Runs a command, and leaves its exit status: that of `run`, or 2 where the call or a file of it cannot be used, or 3 where
 * standard output takes nothing, which is told.
 * @template {Calls.Option} O
 * @param {Calls.Command<O>} command
 * @param {(options: Calls.Values<O>) => number | Promise<number>} run
 * @param {string[]} words
 * @param {string} [name] what complaints begin with
 * @returns {Promise<void>}
 */
export async function perform(command, run, words, name = command.tool) {
  beginOutput(name);
  try {
    leave(await run(parsed(command, words)));
  } catch (fault) {
    leave(toldFault(command, name, fault));
  }
}

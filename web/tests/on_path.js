// Programs on the PATH.

import { accessSync, constants } from "node:fs";
import { delimiter, join } from "node:path";

/**
 * @param {string[]} names
 * @returns {string | null} the path of the first that is there
 */
export function onPath(...names) {
  for (const name of names) {
    for (const folder of (process.env.PATH ?? "").split(delimiter)) {
      try {
        accessSync(join(folder, name), constants.X_OK);
        return join(folder, name);
      } catch {
        // It is not there.
      }
    }
  }
  return null;
}

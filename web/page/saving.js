// Saving: what the machine hands out as files, and the script with the files that it loads.

import { byId, element } from "./dom.js";
import { pngOf, zipOf } from "../zip/index.js";
import { SCRIPT_SAVED, scriptText, sessionOf } from "../machine/index.js";
import { plural } from "../board/index.js";

const text = new TextEncoder();

// The last file that was handed out, for whoever asks: its name and its parts.
/** @type {{ name: string | null, blob: Blob | null }} */
export const saved = { name: null, blob: null };

/** @param {string} name @param {BlobPart[]} parts @param {string} type */
export function download(name, parts, type = "application/octet-stream") {
  const blob = new Blob(parts, { type });
  Object.assign(saved, { name, blob });
  const url = URL.createObjectURL(blob);
  element("a", { href: url, download: name }).click();
  setTimeout(() => URL.revokeObjectURL(url), 60000);
}

// Hands out files, [{ name, bytes }], one alone or in a ZIP of a name; plots in their form.
/** @param {Omit<Machine.ToPage["download"], "number">} files */
export async function handOut({ files, zip, form, pitch }) {
  const made = await Promise.all(files.map(async ({ name, bytes }) =>
    ({ name, parts: form === "png" && pitch !== undefined ? await pngOf(bytes, pitch) : [bytes] })));
  if (zip === null) {
    const [only] = made;
    if (!only) throw new Error("there is no file");
    return download(only.name, only.parts, form === "png" ? "image/png" : undefined);
  }
  const whole = await Promise.all(made.map(async ({ name, parts }) =>
    ({ name, bytes: new Uint8Array(await new Blob(parts).arrayBuffer()) })));
  return download(zip, zipOf(whole), "application/zip");
}

// The script when all that was done before is done; where the station is gone, as it stands: it asks the station nothing.
/** @param {Page.Runner} machine */
export function askForScript(machine) {
  if (machine.state.station.isOpen) return machine.gesture({ kind: "script" });
  saveScript(machine);
  return machine.send({ kind: "say", text: SCRIPT_SAVED });
}

// The script with the files that it loads, and empty folders' keepers for what it writes, to be run outside.
/** @param {Page.Runner} machine */
export function saveScript(machine) {
  const { state } = machine, files = [{ name: "script", bytes: text.encode(scriptText(state)) }];
  for (const [path, bytes] of sessionOf(state)) files.push({ name: path, bytes });
  files.push({ name: "written/about", bytes: text.encode("The texts that the script writes come here.\n") });
  files.push({ name: "plots/about", bytes: text.encode("The pictures that the script plots come here.\n") });
  download("script.zip", zipOf(files), "application/zip");
}

// A change that is not saved is told before the page is left.
/** @param {Page.Runner} machine @param {import("./boards.js").Boards} boards */
export function listenToLeaving(machine, boards) {
  window.addEventListener("beforeunload", (event) => {
    const { unsaved, isLeaving } = machine.state;
    if (unsaved + boards.unsaved > 0 && !isLeaving) event.preventDefault();
  });
  machine.panel(({ unsaved }) => [unsaved], ({ unsaved }) => {
    byId("unsaved").textContent = unsaved ? plural(unsaved, "unsaved change") : "all saved";
  });
}

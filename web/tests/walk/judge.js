// What is wrong after a gesture: what the page shows, beside the model and the program. Each fault is a sentence.

const list = (values) => values.length ? values.slice(0, 6).join(", ") + (values.length > 6 ? ", .." : "") : "nothing";
const isSameList = (one, other) => one.length === other.length && one.every((value, at) => value === other[at]);

// The numbers of the picked items in the model; null stands for a place without one.
export const itemsOf = (model, picked) => picked.map(({ name, place }) => model.itemAt(name, place));

function layers({ seen, truth }) {
  const shown = seen.layers.map(({ name, items }) => `${name} ${items}`).sort();
  const there = [...truth.layers].map(([name, { items }]) => `${name} ${items.length}`).sort();
  return isSameList(shown, there) ? [] : [`the page lists ${list(shown)}; the program has ${list(there)}`];
}

function words({ picked, truth, seen }) {
  const faults = picked.flatMap(({ name, place, words: said }) => {
    const item = truth.layers.get(name)?.items[place];
    if (!item) return [`${name} ${place} is picked, and not there`];
    return item.words === said ? [] : [`${name} ${place} is picked as ${said}, and is ${item.words}`];
  });
  const { head } = seen.picked, [one] = picked;
  const wanted = picked.length === 1 ? `${one.name} ${one.place}` : picked.length ? `${picked.length.toLocaleString("en")} items` : "";
  if (head !== wanted) faults.push(`the panel says '${head}' is picked, and it is '${wanted}'`);
  return faults;
}

function history({ seen, model }) {
  const { done, undone, group } = model;
  const wanted = `${done.length} to undo, ${undone.length} to redo`;
  const faults = [];
  if (!group && seen.history !== wanted) faults.push(`the history says '${seen.history}', and it is ${wanted}`);
  for (const [what, can, steps] of [["undo", seen.canUndo, done], ["redo", seen.canRedo, undone]]) {
    if (can !== (steps.length > 0 && group === null)) faults.push(`${what} can${can ? "" : "not"} be pressed, with ${steps.length} steps`);
  }
  return faults;
}

// Items that a gesture changed are those that were picked before it.
function touched(before, gesture, after) {
  const { changes } = after;
  if (["look", "pick", "save"].includes(gesture.kind)) {
    const made = changes.filter(({ verb }) => !["write", "plot", "window", "list"].includes(verb));
    return made.length ? [`it made ${list(made.map(({ line }) => line))}`] : [];
  }
  if (gesture.kind !== "picked") return [];
  const picked = itemsOf(before.model, before.picked);
  const others = changes.filter((change) => change.touched.some((item) => !picked.includes(item)));
  const faults = others.length ? [`what was not picked was changed: ${list(others.map(({ line }) => line))}`] : [];
  return faults.length || changes.some(({ isRefused }) => isRefused) ? faults : strokes(before, gesture, after, picked);
}

// Each stroke of a key that is held counts.
function strokes(before, { key, times }, { model, changes }, picked) {
  if (!picked.length) return [];
  if (/^(Delete|Backspace)$/.test(key ?? "")) {
    const left = picked.filter((item) => model.has(item));
    return left.length ? [`${left.length} of ${picked.length} are there after ${key}`] : [];
  }
  if (/^Arrow/.test(key ?? "")) {
    // (strokes of one hold are one move)
    const moves = changes.filter(({ verb }) => verb === "move").length;
    return moves === picked.length ? [] : [`${moves} moves of ${picked.length} items by a hold of ${times} strokes`];
  }
  if (/^[[\]]$/.test(key ?? "") && picked.length === 1) {
    const [{ name, place }] = before.picked, now = model.layers.get(name).indexOf(picked[0]);
    const wanted = Math.max(0, Math.min(model.layers.get(name).length - 1, place + (key === "]" ? times : -times)));
    return now === wanted ? [] : [`the item of place ${place} is at ${now} after ${times} strokes, and should be at ${wanted}`];
  }
  return [];
}

// What is picked after a gesture is what was picked before it, where it is there still, and what the gesture itself picks.
function follows(before, gesture, after) {
  if (["pick", "many"].includes(gesture.kind)) return [];
  const was = itemsOf(before.model, before.picked), now = itemsOf(after.model, after.picked);
  const fresh = after.changes.flatMap((change) => change.fresh);
  if (gesture.kind === "insert" && fresh.length) {
    const made = now.filter((item) => fresh.includes(item));
    return made.length === now.length && made.length ? [] : [`${after.picked.length} are picked, and not what was inserted`];
  }
  const others = now.filter((item) => !was.includes(item) && !fresh.includes(item));
  // (one that went, and came back by an undo, was let go when it went)
  const lost = was.filter((item) => after.model.has(item) && !now.includes(item) && !fresh.includes(item));
  const said = (what, items) => items.length ? [`${what}: before ${list(before.picked.map(({ name, place, words: text }) => `${name} ${place} ${text}`))}; `
    + `after ${list(after.picked.map(({ name, place, words: text }) => `${name} ${place} ${text}`))}`] : [];
  return [...said("another item is picked", others), ...said("a picked item is let go", lost)];
}

// What is said of what is saved: nothing is unsaved where all since was undone, and something is where a text differs.
function unsaved({ seen, model, truth, saved }) {
  const isAllSaved = seen.unsaved === "all saved";
  if (model.state === saved.state) return isAllSaved || saved.isUnsure ? [] : [`it says '${seen.unsaved}', and all since the last saving was undone`];
  const changed = [...saved.texts].filter(([name, text]) => truth.layers.get(name)?.text !== text).map(([name]) => name);
  return isAllSaved && changed.length ? [`it says 'all saved', and ${list(changed)} differs from what was saved`] : [];
}

// What is said of keeping: a warning where nothing is wrong is wrong too.
function keeping({ seen, isBroken }) {
  if (/null|undefined|\[object/.test(`${seen.kept} ${seen.told}`)) return [`it says '${seen.told} ${seen.kept}'`];
  return !isBroken && seen.kept ? [`it says '${seen.kept}', and nothing was refused`] : [];
}

export function judged(before, gesture, after) {
  const faults = [...after.truth.faults, ...after.complaints.map((complaint) => `the page threw: ${complaint}`)];
  if (!after.script.startsWith(before.script)) faults.push("the script does not go on from what it was");
  faults.push(...layers(after), ...words(after), ...history(after), ...touched(before, gesture, after), ...follows(before, gesture, after),
    ...unsaved(after), ...keeping(after));
  return faults;
}

// After the page was opened again: it is where it was; where it was ended in the middle of something, it has what it had
// when it last was at rest, and perhaps more.
export function reopened(before, after, isCut) {
  const faults = [...after.truth.faults, ...after.complaints.map((complaint) => `the page threw: ${complaint}`), ...layers(after),
    ...words(after), ...history(after), ...unsaved(after), ...keeping(after)];
  if (isCut ? !after.script.startsWith(before.script) : after.script !== before.script) {
    faults.push(`it had ${before.script.split("\n").length - 1} lines, and has ${after.script.split("\n").length - 1} opened again`);
  }
  if (!isCut && !isSameList(before.seen.refused, after.seen.refused)) {
    faults.push(`refused before: ${list(before.seen.refused)}; opened again: ${list(after.seen.refused)}`);
  }
  // (a page whose layers were all hidden shows them all)
  const isAllHidden = before.seen.layers.every(({ isShown }) => !isShown);
  const looks = ({ seen }) => seen.layers.map(({ name, label, isShown }) => `${name} ${label} ${isShown || isAllHidden}`);
  if (!isCut && !isSameList(looks(before), looks(after))) faults.push(`layers before: ${list(looks(before))}; opened again: ${list(looks(after))}`);
  return faults;
}

// What a comparison says, beside the texts of both: `then` and `now` by name, with the labels of the layers.
export function sameness(said, then, now, labels) {
  const differ = [...now].filter(([name, { text }]) => then.get(name)?.text !== text).map(([name]) => name);
  const isSaidSame = /the same/.test(said) && !/differ/.test(said);
  if (isSaidSame && differ.length) return [`it says '${said}', and ${list(differ)} differs`];
  if (!isSaidSame && !differ.length && !/the same/.test(said)) return [`it says '${said}', and nothing differs`];
  const unnamed = /differs? in/.test(said) ? differ.filter((name) => !said.includes(labels.get(name))) : [];
  return unnamed.length ? [`it says '${said}', and does not name ${list(unnamed)}`] : [];
}

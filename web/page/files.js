// Files that are opened or dropped: their names and bytes, for the machine.

import { Converter } from "./converter.js";
import { HEAD, kindOf } from "../board/index.js";
import { byId } from "./dom.js";
import { faultWords } from "./store.js";
import { isArchive, withUnpacked } from "../zip/index.js";
import { isNetlist } from "../nets/index.js";
import { isPbm } from "../bytes/index.js";

// Archives are unpacked in a worker, so that the page never waits for them.
const unpacking = new Converter();

/** @type {import("../zip/index.js").Unpack} */
export const unpackedApart = (bytes, archive) => unpacking.call("unpack", { bytes, archive }, [bytes.buffer]).catch((fault) =>
  ({ files: [], faults: [`${archive} is not read: what unpacks it ended (${faultWords(fault)}).`] }));

/**
 * What was dropped: a file, or a folder by its entry, and by its handle where the browser has one.
 * @typedef {{ isFolder: false, file: File | null }
 *   | { isFolder: true, entry: FileSystemEntry, handle: Promise<FileSystemHandle | null> | undefined }} Dropped
 */

// Browsers tell a drag several times a second while it is over the page: one that was not told for so long has left it.
const SILENT_MS = 1000;

/** @template T @param {(done: (value: T) => void, fail: (fault: Error) => void) => void} act @returns {Promise<T>} */
const promised = (act) => new Promise((done, fail) => { act(done, fail); });

// The files of a folder, by its handle or by its entry: on a page that was opened from disk the entries of a drop throw
// where they are read. A browser that reads neither throws.
/** @param {Extract<Dropped, { isFolder: true }>} item @param {File[]} files */
async function filesIn({ handle, entry }, files) {
  const folder = /** @type {FileSystemDirectoryHandle | null} */ (await handle?.catch(() => null) ?? null);
  return folder ? filesOfHandle(folder, files) : filesOfEntry(entry, files);
}

/** @param {FileSystemDirectoryHandle} folder @param {File[]} files */
async function filesOfHandle(folder, files) {
  for await (const inner of folder.values()) {
    if (inner.kind === "directory") await filesOfHandle(inner, files);
    else files.push(await inner.getFile());
  }
}

/** @param {FileSystemEntry} entry @param {File[]} files */
async function filesOfEntry(entry, files) {
  if (entry.isFile) return files.push(await promised((done, fail) => /** @type {FileSystemFileEntry} */ (entry).file(done, fail)));
  const reader = /** @type {FileSystemDirectoryEntry} */ (entry).createReader();
  for (;;) {
    /** @type {FileSystemEntry[]} */
    const some = await promised((done, fail) => reader.readEntries(done, fail));
    if (!some.length) return undefined;
    for (const inner of some) await filesOfEntry(inner, files);
  }
}

// What is dropped: each file as it is, each folder by what reads it. It is asked while the drop is told, since a drop has
// its items no longer.
/** @param {DataTransfer | null} transfer @returns {Dropped[]} */
export function droppedOf(transfer) {
  if (!transfer) return [];
  /** @param {DataTransferItem} item @returns {Dropped} */
  const dropped = (item) => {
    const entry = item.webkitGetAsEntry?.();
    return entry?.isDirectory ? { entry, isFolder: true, handle: item.getAsFileSystemHandle?.() } : { isFolder: false, file: item.getAsFile() };
  };
  const items = [...transfer.items].filter(({ kind }) => kind === "file").map(dropped);
  return items.length ? items : [...transfer.files].map((file) => ({ file, isFolder: false }));
}

/** @param {Dropped[]} list */
export async function readDropped(list) {
  /** @type {File[]} */
  const files = [];
  /** @type {string[]} */
  const faults = [];
  for (const item of list) {
    if ("file" in item) {
      if (item.file) files.push(item.file);
      continue;
    }
    try {
      await filesIn(item, files);
    } catch {
      faults.push(`${item.entry.name} is a folder, which this browser does not read from a drop: use the button 'folder'.`);
    }
  }
  return { ...await readAll(files, faults), areNamed: !list.some(({ isFolder }) => isFolder) };
}

// A file of more bytes is read whole only where its first ones are those of something that the page opens.
const LARGE = 2 ** 25;

/** @param {Uint8Array} head */
const isOfBoard = (head) => kindOf(head) !== null || isArchive(head) || isPbm(head) || isNetlist(head);

/** @param {Blob} part */
const bytesOf = async (part) => new Uint8Array(await part.arrayBuffer());

/** @param {File[]} files @param {string[]} faults */
export async function readAll(files, faults = []) {
  const read = [];
  for (const file of files) {
    try {
      const isRead = file.size <= LARGE || isOfBoard(await bytesOf(file.slice(0, HEAD)));
      if (isRead) read.push({ name: file.name, bytes: await bytesOf(file) });
      else faults.push(`${file.name} begins as no layer does, and has ${Math.round(file.size / 1e6)} MB, so it is not read.`);
    } catch {
      faults.push(`${file.name} cannot be read.`);
    }
  }
  return { files: read, faults };
}

// While files are dragged over the page, it shows where they go. The last that is heard of a drag that leaves is nothing more.
function listenToDrags() {
  let timer = 0;
  /** @param {boolean} isOver */
  const show = (isOver) => {
    byId("dropping").hidden = !isOver;
    clearTimeout(timer);
    if (isOver) timer = setTimeout(show, SILENT_MS, false);
  };
  for (const kind of /** @type {const} */ (["dragenter", "dragover"])) {
    document.addEventListener(kind, (event) => {
      event.preventDefault();
      show([...event.dataTransfer?.types ?? []].includes("Files"));
    });
  }
  document.addEventListener("dragleave", ({ relatedTarget }) => relatedTarget ?? show(false));
  document.addEventListener("drop", () => show(false));
}

// `take` takes what is no layer and no picture out of the files that are opened in the board that is shown, and gives the others
// back. What is given to a board is opened in that board, whichever is shown when it is read.
/** @param {Page.Runner} machine @param {import("./boards.js").Boards} boards @param {(files: Machine.File[]) => Machine.File[]} take */
export function listenToFiles(machine, boards, take = (files) => files) {
  // One after another, in the order in which they were given.
  let last = Promise.resolve();
  /** @param {Promise<{ files: Machine.File[], faults: string[], areNamed: boolean }>} reading */
  const inTurn = (reading) => {
    // (none is shown while the page still looks which boards there are: it is the one that is shown first)
    const board = boards.shown;
    /** @type {{ reading?: number }} */
    const counted = board ?? {};
    counted.reading = (counted.reading ?? 0) + 1;
    last = last.then(async () => {
      const read = await reading, { files, faults, isAny } = await withUnpacked(read.files, unpackedApart), all = [...read.faults, ...faults];
      const isShown = !board || board === boards.shown, rest = isShown ? take(files) : files;
      // The files of an archive are opened as those of a folder.
      if (rest.length || all.length || !files.length) boards.take(isShown ? boards.shown : board, { files: rest, areNamed: read.areNamed && !isAny, faults: all });
    }).catch((fault) => machine.send({ kind: "fault", why: faultWords(fault) })).then(() => { counted.reading = (counted.reading ?? 0) - 1; });
    machine.await(last);
  };
  /** @param {HTMLInputElement} input @param {boolean} areNamed */
  const open = (input, areNamed) => {
    const files = [...input.files ?? []];
    input.value = "";
    inTurn(readAll(files).then((read) => ({ ...read, areNamed })));
  };
  byId("files").onchange = () => open(byId("files"), true);
  byId("folder").onchange = () => open(byId("folder"), false);
  listenToDrags();
  document.addEventListener("drop", (event) => {
    event.preventDefault();
    const dropped = droppedOf(event.dataTransfer);
    if (dropped.length) inTurn(readDropped(dropped));
    else machine.send({ kind: "say", text: "Nothing in that drop is a file.", isFault: true });
  });
}

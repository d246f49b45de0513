// The way from the store of before: a database for each board, counted by each window for itself, with the list of them in that of
// the first board. Each becomes a board of its own in the store of now, and its database is deleted then.

import { CLOSING_MS } from "./holding.js";
import { opened, settled } from "./store.js";
import { looksFrom, partOfKey, recordFrom } from "./stored.js";
import { titleOf } from "../board/index.js";

/** @typedef {[key: IDBValidKey, value: unknown][]} Rows */
/** @typedef {{ lines: Rows, files: Rows, looks: Rows }} Older */

/** @param {IDBDatabase} base @returns {Promise<Older>} */
async function contentOf(base) {
  const transaction = base.transaction(["lines", "files", "looks"]);
  /** @param {string} name @returns {Promise<Rows>} */
  const rows = async (name) => {
    const store = transaction.objectStore(name), [keys, values] = await Promise.all([settled(store.getAllKeys()), settled(store.getAll())]);
    return keys.map((key, at) => [key, values[at]]);
  };
  const [lines, files, looks] = await Promise.all([rows("lines"), rows("files"), rows("looks")]);
  return { lines, files, looks };
}

/** @param {Older} content */
const looksOf = ({ looks }) => looksFrom(looks.find(([key]) => key === "looks")?.[1]);

// The databases of before of a journal, each with the number of its board; those that no list has too, where the browser names its
// databases.
/** @param {IDBFactory} factory @param {string} first @param {Machine.OlderRegistry | undefined} registry */
async function databasesOf(factory, first, registry) {
  const all = factory.databases ? (await factory.databases()).map(({ name }) => name)
    : [first, ...Array.from({ length: registry?.count ?? 0 }, (_, at) => `${first} board ${at + 1}`)];
  return all.flatMap((name) => {
    if (name === undefined) return [];
    if (name === first) return [{ name, number: 1 }];
    const found = name.startsWith(`${first} board `) ? /^\d+$/.exec(name.slice(`${first} board `.length)) : null;
    return found ? [{ name, number: Number(found[0]) }] : [];
  }).sort((one, other) => one.number - other.number);
}

/** @param {unknown} one @param {unknown} other */
const isAlike = (one, other) => JSON.stringify(one) === JSON.stringify(other);

/** @param {unknown} one @param {unknown} other */
const isSame = (one, other) => one instanceof Uint8Array && other instanceof Uint8Array ? isAlike([...one], [...other]) : isAlike(one, other);

// Whether a board of the store is one of before that was brought over when the page was killed.
/** @param {import("./store.js").Store} store @param {Page.Stores} stores @param {string} key @param {Older} older */
async function isBrought(store, stores, key, { lines, files }) {
  const range = store.of(key);
  const [values, ids, bytes] = await Promise.all([settled(stores.lines.getAll(range)), settled(stores.files.getAllKeys(range)),
    settled(stores.files.getAll(range))]);
  return isAlike(values, lines.map(([, value]) => value)) && isAlike(ids.map((name) => partOfKey(name, 1)), files.map(([id]) => String(id)))
    && files.every(([, its], at) => isSame(its, bytes[at]));
}

// Puts a board of before into the store, all of it or nothing; one that was put there when the page was killed, once.
/** @param {import("./store.js").Store} store @param {Older} older @param {Omit<Page.Listing, "key" | "isBlank">} record */
async function bring(store, older, record) {
  const key = store.platform.newName(), { lines, files, looks } = older;
  const { fault } = await store.attempt(async (stores) => {
    const [keys, others] = await Promise.all([settled(stores.boards.getAllKeys()), settled(stores.boards.getAll())]);
    const records = others.map(recordFrom);
    for (const [at, { from }] of records.entries()) {
      if (from === record.from && await isBrought(store, stores, String(keys[at]), older)) return;
    }
    const isFree = !records.some(({ number }) => number === record.number);
    stores.boards.put({ ...record, number: isFree ? record.number : 1 + Math.max(...records.map(({ number }) => number)) }, key);
    lines.forEach(([, value], at) => stores.lines.put(value, [key, at + 1]));
    for (const [id, bytes] of files) stores.files.put(bytes, [key, String(id)]);
    for (const [name, value] of looks) stores.looks.put(value, [key, String(name)]);
  });
  if (fault) throw fault;
}

// Brings over what the pages of before have kept under a journal; how many boards a window of before still has open, and what failed.
/** @param {import("./store.js").Store} store @param {string} first @returns {Promise<{ left: number }>} */
export async function bringOver(store, first) {
  const { platform } = store, factory = platform.database();
  const base = await opened(factory, first), registry = base ? looksOf(await contentOf(base)).registry : undefined;
  base?.close();
  let left = 0;
  for (const { name, number } of await databasesOf(factory, first, registry)) {
    const isOver = await locked(platform, name, async () => {
      const older = await opened(factory, name), content = older ? await contentOf(older) : null;
      older?.close();
      if (content && (content.lines.length || content.files.length)) {
        const key = name === first ? "" : `board ${number}`, listed = registry?.boards.find((board) => board.key === key);
        await bring(store, content, { number, title: listed?.title ?? titleOf({ layers: looksOf(content).layers ?? [] }), shown: registry && registry.shown === key ? 1 : 0, window: null,
          holder: null, hasContents: key === "", isFound: key !== "" && !listed, from: name });
      }
      if (older) await settled(factory.deleteDatabase(name));
    });
    if (!isOver) left++;
  }
  return { left };
}

// Does something while no page of before has the database of this name open; whether it was done.
/** @param {Page.Platform} platform @param {string} name @param {() => Promise<void>} act @returns {Promise<boolean>} */
function locked({ locks, pause }, name, act) {
  if (!locks) return act().then(() => true);
  const control = new AbortController();
  pause(CLOSING_MS).then(() => control.abort());
  let isDone = false;
  return locks.request(name, { signal: control.signal }, async () => {
    await act();
    isDone = true;
  }).then(() => true, (/** @type {unknown} */ fault) => {
    if (isDone || !(fault instanceof Error) || fault.name !== "AbortError") throw fault;
    return false;
  });
}

// What the page needs of the browser to keep its boards, handed on as one, so that tests run several windows over one store.

const WINDOW = "camplot window";

// A name that nobody else chooses: 128 random bits.
export const newName = () => [...crypto.getRandomValues(new Uint8Array(16))].map((byte) => byte.toString(16).padStart(2, "0")).join("");

// The name of this window, which stays through a reload, and whether it has just got it. A window that is made as the double of
// another one begins with the same name; the locks of the boards decide then.
function windowName() {
  const name = newName();
  try {
    const known = sessionStorage.getItem(WINDOW);
    if (known) return { window: known, isFresh: false };
    sessionStorage.setItem(WINDOW, name);
  } catch {
    // A browser that keeps nothing for a window.
  }
  return { window: name, isFresh: true };
}

// A browser without channels lets no window ask another one: its boards are taken by their locks then.
/** @param {string} name @returns {Page.Channel} */
function openChannel(name) {
  if (typeof BroadcastChannel === "function") return new BroadcastChannel(name);
  return { postMessage: () => {}, onmessage: null };
}

/** @returns {Page.Platform} */
export const browserPlatform = () => ({
  ...windowName(), newName, openChannel,
  database: () => indexedDB,
  range: (from, to) => IDBKeyRange.bound(from, to),
  locks: navigator.locks ?? null,
  now: () => Date.now(),
  pause: (ms) => new Promise((done) => { setTimeout(done, ms); }),
  inTime: (promise, ms) => Promise.race([promise,
    new Promise((_, fail) => { setTimeout(() => fail(new Error("it does not answer")), ms); })]),
});

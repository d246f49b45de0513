// What web/build, or a tool, puts into the page as text: packed bytes.

/** @param {string} text */
const fromText = (text) => Uint8Array.from(atob(text.trim()), (letter) => letter.charCodeAt(0));

// The bytes that a base64 text of gzip's form holds.
/** @param {string} text */
export async function unpacked(text) {
  const stream = new Blob([fromText(text)]).stream().pipeThrough(new DecompressionStream("gzip"));
  return new Uint8Array(await new Response(stream).arrayBuffer());
}

/** @template T @param {T & { packed?: string }} part */
const read = async ({ packed, ...rest }) => ({ ...rest, bytes: packed === undefined ? null : await unpacked(packed) });
/** @template T @param {(T & { packed?: string })[] | undefined} list */
const readAll = (list) => Promise.all((list ?? []).map(read));

// The page's contents, { title, id, files, lines, pictures, window } as web/building/contents.js has them; null where
// there are none.
/** @param {string} text @returns {Promise<Machine.Contents | null>} */
export async function contentsOf(text) {
  const contents = JSON.parse(text);
  if (!contents) return null;
  const [files, lines, pictures] = await Promise.all([contents.files, contents.lines, contents.pictures].map(readAll));
  return { ...contents, files, lines, pictures };
}

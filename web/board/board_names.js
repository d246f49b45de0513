// What a board is called.

// What the names of a board's files have in common, or else the name of its first file.
/** @param {{ layers: { file?: string | undefined, label?: string | undefined }[] }} state */
export function titleOf({ layers }) {
  const names = layers.flatMap(({ file, label }) => file ?? label ?? []);
  const [first] = names;
  if (first === undefined) return null;
  let length = first.length;
  while (length > 0 && !names.every((name) => name.startsWith(first.slice(0, length)))) length--;
  const common = first.slice(0, length).replace(/\.[^.]*$/, "").replace(/[-_. ]+$/, "");
  return common.length > 2 ? common : first;
}

/** @param {{ title: string | null, number: number }} board */
export const nameOf = ({ title, number }) => title ?? `board ${number}`;

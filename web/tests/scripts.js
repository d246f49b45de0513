// Scripts over files in memory, served by a module's station: what differs from what the program said and wrote.

import { Station } from "../station/station.js";

const LONGEST_LINE_WORD = /[ \t]+/;

const decoded = (text) => Uint8Array.from(atob(text), (letter) => letter.charCodeAt(0));
const latin1 = (bytes) => Array.from(bytes, (byte) => String.fromCharCode(byte)).join("");

function linesOf(script) {
  const lines = script.split("\n");
  const last = lines.pop();
  const ended = lines.map((line) => line.endsWith("\r") ? line.slice(0, -1) : line);
  return last ? [...ended, last] : ended;
}

const isSame = (one, other) => one !== undefined && one.length === other.length && one.every((byte, at) => byte === other[at]);

// Serves a script by a compiled module; what differs from what the program said, or null.
function differenceOf(compiled, { script, depth, files, replies, put }) {
  const held = new Map(Object.entries(files).map(([name, bytes]) => [name, decoded(bytes)]));
  const station = new Station(compiled, depth);
  const said = [];
  held.set("script", decoded(script));
  for (const line of linesOf(latin1(decoded(script)))) {
    const words = line.split(LONGEST_LINE_WORD).filter((word) => word);
    const path = words[0] === "load" && words.length === 4 ? words[3] : null;
    const bytes = Uint8Array.from(line, (letter) => letter.charCodeAt(0));
    const code = station.apply(bytes, path === null ? null : held.get(path) ?? null);
    const reply = latin1(station.reply);
    if (reply) said.push(reply.slice(0, -1));
    if (reply.startsWith("refused") !== (code !== 0)) return `the number ${code} beside ${reply}`;
    if (["plot", "write"].includes(words[0]) && reply.startsWith("ok")) held.set(words[2], station.file);
  }
  station.close();
  const at = said.findIndex((reply, k) => reply !== replies[k]);
  if (at >= 0 || said.length !== replies.length) return `reply ${at}: ${said[at]} in place of ${replies[at]}`;
  const other = Object.entries(put).find(([name, bytes]) => !isSame(held.get(name), decoded(bytes)));
  return other ? `${other[0]} is another` : null;
}

export const differencesOf = (compiled, cases) => cases.map((each) => {
  try {
    return differenceOf(compiled, each);
  } catch (fault) {
    return String(fault);
  }
});

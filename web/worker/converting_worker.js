// The worker that converts refused files and unpacks archives: a message is { call, kind, .. }, and its answer { call, answer } or
// { call, fault }.

import { convertedOf, firstOf, waysOf } from "./converting.js";
import { faultWords, unknown } from "./faults.js";
import { filesOfArchive } from "../zip/index.js";

/** @typedef {Worker.ConvertingAnswered[keyof Worker.ConvertingAnswered]} AnyAnswer */

/** @param {Worker.ConvertingAsked["unpack"]} message @returns {Promise<Worker.ConvertingAnswered["unpack"]>} */
const unpack = ({ bytes, archive }) => filesOfArchive(bytes, archive);

/** @param {Worker.ConvertingAsked["ways"]} message @returns {Worker.ConvertingAnswered["ways"]} */
const ways = ({ layer, bytes }) => waysOf(layer, bytes).map(({ choices, words }) => ({ choices, words }));

/** @param {Worker.ToConverting} message @returns {AnyAnswer | Promise<AnyAnswer>} */
function answered(message) {
  switch (message.kind) {
    // The choices under which a file is offered first, with what comes of them.
    case "first": return firstOf(message.layer, message.bytes);
    case "converted": return convertedOf(message.layer, message.bytes, message.choices);
    case "unpack": return unpack(message);
    case "ways": return ways(message);
    default: return unknown(message);
  }
}

/** @type {(message: Worker.FromConverting, over?: Transferable[]) => void} */
const post = (message, over = []) => self.postMessage(message, over);

self.onmessage = async (/** @type {MessageEvent<Worker.ToConverting>} */ { data }) => {
  const { call } = data;
  try {
    const answer = await answered(data);
    post({ call, answer }, answer && "files" in answer ? answer.files.map(({ bytes }) => bytes.buffer) : []);
  } catch (fault) {
    post({ call, fault: faultWords(fault) });
  }
};

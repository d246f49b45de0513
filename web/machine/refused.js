// A refusal among the answers to lines, in words.

import { advice } from "./refusal_words.js";

// Tells it; whether there is one.
/** @param {Machine.Turn} turn @param {Machine.Applied[]} answers */
export function tellRefused(turn, answers) {
  const refused = answers.find(({ code }) => code);
  if (refused) turn.say(`${refused.reply}: ${advice(refused.code)}`, true);
  return Boolean(refused);
}

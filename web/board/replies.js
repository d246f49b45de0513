// The lines of a script and their replies.

/** A line of a script, its number from 1, and the words of its reply. */
export class Reply {
  /**
   * @param {number} number
   * @param {string} line
   * @param {string[]} words
   */
  constructor(number, line, words) {
    this.number = number;
    this.line = line;
    this.words = words;
  }

  get isAccepted() {
    return this.words[0] === "ok";
  }

  /** What an accepted line tells first. */
  get count() {
    return Number(this.words[1]);
  }

  /** The number of a refusal. */
  get refusal() {
    return Number(this.words[1]);
  }

  /** The place of a fault in the file, in bytes from its start; null where there is none. */
  get at() {
    return this.words.length > 2 ? Number(this.words[2]) : null;
  }
}

/**
 * The words of a line, as the program cuts them.
 * @param {string} line
 * @returns {string[]}
 */
export function wordsOf(line) {
  return line.split(/[ \t\r]+/).filter((word) => word);
}

/**
 * Whether a line has a reply: it is neither blank nor a comment.
 * @param {string} line
 */
export function isCommand(line) {
  return /^[ \t\r]*[^ \t\r#]/.test(line);
}

/**
 * The lines of a text, as the program cuts them.
 * @param {string} text
 * @returns {string[]}
 */
export function scriptLines(text) {
  const lines = text.split("\n");
  if (lines[lines.length - 1] === "") lines.pop();
  return lines.map((line) => (line.endsWith("\r") ? line.slice(0, -1) : line));
}

/**
 * The replies to the lines of a script.
 * @param {string[]} lines
 * @param {string} output what the program printed
 * @returns {Reply[] | null} null where there are more of them, or fewer, than lines that have one
 */
export function repliesOf(lines, output) {
  const replies = scriptLines(output);
  const commands = lines.map((line, at) => ({ number: at + 1, line })).filter(({ line }) => isCommand(line));
  if (replies.length !== commands.length) return null;
  return commands.map(({ number, line }, at) => new Reply(number, line, (replies[at] ?? "").split(" ")));
}

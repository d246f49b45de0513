/** A line that was refused, or a question: its number (docs/refusals.md), and the reply, as `refused 60`. */
export class Refused extends Error {
  readonly line: string;
  readonly code: number;
  readonly reply: string;
}

/** What a line came to. */
export interface Answer {
  /** The number of the refusal, or 0. */
  code: number;
  /** The reply without a line end; empty for a comment. */
  reply: string;
  /** The bytes of the picture of a plot (PBM), or of the text of a write; else none. */
  file: Uint8Array;
}

export interface Options {
  /** How many edits and groups can be undone, from 1 to 1,000; 100 by default. */
  depth?: number;
  /** The module, where it is compiled already. */
  module?: WebAssembly.Module | null;
}

/** A board of named layers, a window, and the history of what was done to the board. */
export class Station {
  private constructor(machine: unknown);
  static open(options?: Options): Promise<Station>;
  /** Frees its memory; it can't be used after that. */
  close(): void;
  /** Applies one line of a script (docs/formats.md); a `load` with the bytes of its file. */
  apply(line: string | Uint8Array, file?: string | Uint8Array | null): Answer;
  /** The same; throws Refused for a line that is refused, and answers the file's bytes. */
  run(line: string | Uint8Array, file?: string | Uint8Array | null): Uint8Array;
  /** The lines of the answer to a question (docs/questions.md); throws Refused for one that is not answered. */
  ask(question: string): string[];
  /** Draws at most so many dirty tiles; answers how many were drawn. */
  redraw(atMost: number): number;
  /** The 64 rows of a clean tile, from the top, eight bytes each, the lowest bit on the left; null for any other. */
  tile(layer: number, number: number): Uint8Array | null;
}

// The gesture that is under way, by its kind and its stage: what is known of it there, what it waits for, and what it does with that.
// It is for tsc alone (.ci/javascript).

declare namespace Machine {
  /** What a gesture of a kind does: it begins, hears what it waits for, and ends when its lines are settled, or "more" is to come. */
  interface Kind<K extends Gesture["kind"]> {
    begin(turn: Turn<K>, gesture: GestureOf<K>): unknown;
    /** Of each stage what is done with the answer that it waits for. */
    heard?: K extends keyof Stages ? Hears<K> : never;
    end?(turn: Turn<K>, gesture: GestureOf<K>, left: LeftOf<K>): unknown;
    finished?(turn: Turn<K>, gesture: GestureOf<K>): unknown;
  }
  type Hears<K extends keyof Stages> = {
    [S in keyof Stages[K]]: (turn: Turn<K>, gesture: GestureOf<K>, answer: HeardAt<Stages[K][S]>, at: KnownAt<Stages[K][S]>) => unknown;
  };
  type Kinds = { [K in Gesture["kind"]]: Kind<K> };
  /** The same of a gesture of any kind. */
  interface AnyKind {
    begin(turn: Turn, gesture: Gesture): unknown;
    heard?: { [stage: string]: ((turn: Turn, gesture: Gesture, answer: unknown, at: Work) => unknown) | undefined };
    end?(turn: Turn, gesture: Gesture, left: Left[keyof Left] | null): unknown;
    finished?(turn: Turn, gesture: Gesture): unknown;
  }

  /**
   * The gesture that is under way: at a stage that any may have, or at one of its kind, where it waits for an answer. Each has what is
   * known there, and nothing else.
   */
  type Work = UnderWay & (Begun | Settling | BeingKept)
    | { [K in keyof Stages]: { number: number; gesture: GestureOf<K> } & StageOf<K> }[keyof Stages];
  interface UnderWay { number: number; gesture: Gesture }
  interface Begun { stage: "begun" }
  /** Its lines are done: they are kept and what came of them is seen, in any order; then it ends, by what is left of it. */
  interface Settling {
    stage: "settling"; entries: Told[]; after: Partial<State>; picks: Picked[]; isKept: boolean; isSeen: boolean; result: Result | null;
    left: Left[keyof Left] | null;
  }
  /** It is over once the journal has what it was handed. */
  interface BeingKept { stage: "kept" }
  type StagesOf<K extends keyof Stages> = { [S in keyof Stages[K]]: { stage: S } & KnownAt<Stages[K][S]> }[keyof Stages[K]];
  /** By kinds, so that a turn of one kind is a turn of any. */
  type StageTable = { [K in Gesture["kind"]]: K extends keyof Stages ? StagesOf<K> : never };
  type StageOf<K extends Gesture["kind"]> = StageTable[K];
  type LeftTable = { [K in Gesture["kind"]]: K extends keyof Left ? Left[K] : null };
  type LeftOf<K extends Gesture["kind"]> = LeftTable[K];
  /** What is known at a stage, and what is heard there. */
  interface At<Known, Answer> { known: Known; heard: Answer }
  type KnownAt<A> = A extends At<infer Known, unknown> ? Known : never;
  type HeardAt<A> = A extends At<unknown, infer Answer> ? Answer : never;
  /** The stages of each kind. At "asking" it waits for a person; at "lines" for the station, where all of a group or none of it is done. */
  interface Stages {
    close: { asking: At<{}, Replied> };
    closeAll: { asking: At<{}, Replied> };
    compare: { comparing: At<{}, Differing> };
    compareTwo: { comparing: At<{ pair: [Compared, Compared] }, Counts> };
    compareView: { comparing: At<{}, Sheets> };
    dropped: { dropped: At<{}, { files: { id: string; words: string[] }[] }> };
    edit: { lines: At<{ isGroup: boolean; lines: string[]; places: Place[] | null; changes: Partial<State> | null }, Lines> };
    fit: { boxes: At<{}, Boxes> };
    gap: { gap: At<{}, { gap: Board.Gap | null }> };
    give: {
      boxes: At<{ names: string[] }, Boxes>;
      pictures: At<{ names: string[]; area: Area }, { pictures: Uint8Array[] | null }>;
      handing: At<{ words: string }, Handed>;
    };
    light: { lit: At<{ of: Shared }, Answer<{ items: Listed[]; count: number; entries: Record<string, string[]> }>> };
    lines: {
      asking: At<{}, Replied>;
      lines: At<{ isGroup: boolean; lines: string[]; isBlind: boolean; load: { path: string; file: string } | null }, Lines>;
    };
    load: { asking: At<{}, Replied>; lines: At<{ isGroup: false; line: string; name: string; path: string; look: Partial<Look> }, Lines> };
    opened: { boxes: At<{}, Boxes> };
    pickAt: { under: At<{}, { found: Place | null }> };
    pickIn: { inside: At<{}, Places> };
    pickLike: { like: At<{}, Places> };
    pickShared: { shared: At<{}, Answer<Places & { count: number }>> };
    picture: {
      boxes: At<{ picture: BitPicture }, Boxes>;
      asking: At<{ picture: BitPicture }, Replied>;
      put: At<{ name: string; window: string }, object>;
    };
    pile: { pile: At<{}, { items: Listed[]; isMore: boolean }> };
    plot: {
      boxes: At<{}, Boxes>;
      lines: At<{ isGroup: false; lines: string[]; plotted: string[] }, Lines>;
      handing: At<{ words: string; entries: Told[] }, Handed>;
    };
    replay: { lines: At<Replaying & { isGroup: false; isSent: boolean[] }, Lines> };
    save: {
      lines: At<{ isGroup: false; writes: { line: string; layer: Layer; name: string }[] }, Lines>;
      attributes: At<{ entries: Told[]; files: Text[] }, { files: { name: string; bytes: Uint8Array | null; why?: string }[] }>;
      handing: At<{ words: string; entries: Told[] }, Handed>;
    };
    script: { handing: At<{}, Handed> };
    seek: { boxes: At<{ names: string[] }, Boxes> };
    tally: { tally: At<{}, { layers: Record<string, { counts: Tally["counts"]; entries: string[] }>; lit: Listed[] | null }> };
    whole: {
      items: At<{}, { items: string[]; own: string; boxes: string[] }>;
      asking: At<{ whole: Whole }, Replied>;
      lines: At<{ isGroup: boolean; lines: string[]; places: Place[] | null; changes: Partial<State> | null }, Lines>;
    };
  }
  /** What is left of a gesture for its end. */
  interface Left {
    load: { name: string; isWell: boolean };
    pickAt: { found: Place | null };
    pickIn: { count: number };
    pickLike: { count: number };
    pickListed: { item: Place };
    picks: { isLed: boolean };
    pickShared: { count: number };
    replay: { isSpoiled: boolean };
  }
  type BitPicture = import("../bytes/index.js").Picture;
  /** A layer's text, under the name that it is saved by. */
  interface Text extends File { layer: string }
  /** What is still to be played, what that made so far, and which of the steps are real. */
  interface Replaying { rest: Told[]; made: Told[]; spoiled: State["spoiled"]; steps: Real }
  /** What a gesture hears at any of its stages. */
  type Heard = { [K in keyof Stages]: HeardAt<Stages[K][keyof Stages[K]]> }[keyof Stages];
}

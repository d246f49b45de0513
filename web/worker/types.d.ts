// The messages between the page and its workers: of each worker what it is asked and what it answers, by kinds, and of each direction
// one union. It is for tsc alone (.ci/javascript). What the machine asks of the station's worker is in web/board/types.d.ts.

declare namespace Worker {
  /** What is asked of a worker, each by its kind and with a number of its own or of a call. */
  type Question<A, N = { call: number }> = { [K in keyof A]: { kind: K } & N & A[K] }[keyof A];
  /** What an answer hands over to the page beside itself. */
  type Over<T> = T & { over?: Transferable[] };
  /** The answer to a question, or why there is none. */
  type Reply<T, N = { call: number }> = N & ({ answer: T } | { fault: string });
  type Choices = import("./converting.js").Choices;
  type Converted = import("./converting.js").Converted;

  // ---- The worker with the station (main.js) ----

  /** A message of the machine has a number, a call of the page its own. */
  type Numbered = { number: number } | { call: number };
  /** The view that is drawn: a line of a script, and its layers, the topmost first. */
  interface Wanted { number: number; window: string; samples: number; layers: WantedLayer[]; made: MadeSide | null }
  /** `isThere` where the page has a picture of it, into which rows can be put. */
  interface WantedLayer { name: string; colour: string; isOpened?: boolean | undefined; isThere?: boolean | undefined }
  /** Rows of a picture: the first one, and the one behind the last. */
  interface Rows { from: number; to: number }
  /** A side of the board as it will be made, of layers with what they show, what their files say of that, and which tools these call not plated. */
  interface MadeSide { side: "top" | "bottom"; mask: string; finish: string; layers: MadeLayer[] }
  interface MadeLayer { name: string; shows: string; said: string | null; bare: number[] }
  interface StationAsked extends Board.Asked {
    open: { module: Uint8Array; depth: number };
    view: { view: Wanted };
    halt: {};
    near: Board.Point & { names: string[]; unknown: string[]; reach: number };
    shapes: { name: string; side: number; colour: string };
    board: { made: MadeSide; line: string };
    words: Board.Place & Board.Telling;
    at: Board.Point & { pile: string[] } & Board.Telling;
    find: { query: string; most: number } & Board.Telling;
    about: { job: { name: string; bytes: Uint8Array } | null; fileNames: string[] } & Board.Telling;
    memory: {};
  }
  /** An item in words, with what it shares with others. */
  interface Words extends Board.Place {
    head: string; rows: [name: string, value: string][]; line: string; sentence: string; alike: import("../telling/index.js").Alike[]; box: string;
  }
  /** What a text finds, with the number of items that each result lights. */
  interface Finds {
    query: string; count: number; shown: number; groups: (Omit<FoundGroup, "results"> & { results: (Omit<FoundGroup["results"][number], "lights"> & { items: number })[] })[];
  }
  type FoundGroup = ReturnType<typeof import("../telling/index.js").find>["groups"][number];
  interface StationAnswered extends Board.Answered {
    open: Board.Nothing;
    view: Board.Nothing;
    halt: Board.Nothing;
    near: { items: Board.Listed[]; entries: Record<string, string[]> };
    shapes: { shapes: { number: number; bitmap: ImageBitmap | null }[] };
    board: { png: Uint8Array | null; lacks: string[] };
    words: Board.Answer<Words>;
    at: Board.Answer<Words>;
    find: Board.Answer<Finds>;
    about: Board.Answer<{ rows: [name: string, value: string][]; text: string }>;
    memory: { bytes: number };
  }
  type ToStation = Question<StationAsked, Numbered>;
  /** What the page is told without a question, while the view is drawn. */
  type News = { kind: "picture" } & Came | { kind: "drawn"; number: number } | { kind: "drawing"; number: number } & Progress
    | { kind: "undrawn"; why: string; name?: undefined; code?: undefined } | { kind: "undrawn"; name: string; code: number; why?: undefined };
  /** A picture that came: of the window, or where `place` says; of a side of the board with what lacks. */
  interface Came {
    number: number; name: string; bitmap: ImageBitmap | null; window?: string; samples?: number; isPart?: boolean;
    place?: { left: number; top: number; pitch: number }; side?: "top" | "bottom"; lacks?: string[];
    rows?: Rows;
  }
  /** How far a drawing is: so many layers, and a part of the next one. */
  interface Progress { drawn: number; count: number; part: number }
  /** Answers, news, and that the station broke. */
  type FromStation = Reply<StationAnswered[keyof StationAnswered], Numbered> | News | { fault: string };
  type PostFromStation = (message: FromStation, over?: Transferable[]) => void;

  // ---- The worker of the nets (nets_worker.js) ----

  /** A line that the page's station accepted; of a load with its file, and what the page calls that. */
  type FollowedLine = { line: string } | { line: string; name: string; bytes: Uint8Array };
  interface NetsAsked {
    open: { module: Uint8Array; depth: number; pitch: number };
    lines: { lines: FollowedLine[] };
    net: Board.Point & { names: string[] };
    netlist: { bytes: Uint8Array | null };
    check: { limits: [string, number][] };
    stop: {};
    near: { net: number; gap: number };
  }
  type Desk = import("../nets/index.js").Desk;
  /** What is known of the nets as a whole; without copper that there is none. */
  type NetsKnown = { count: null } | {
    count: number; pieces: number; pitch: number; window: import("../board/index.js").PlotWindow; shown: string[]; copper: number; missing: number[];
    points: number; isNetlist: boolean; shift: Board.Point; misfit: string | null;
  };
  /** What a check found, under which netlist that fits not, and how long it took. */
  type Checked = import("./checked_board.js").Answer & { misfit: string | null; ms: number };
  interface NetsAnswered {
    open: Board.Nothing;
    lines: NetsKnown & { changes: ReturnType<Desk["settleInWords"]>; ms: number };
    net: { net: null } | NetsKnown & { net: ReturnType<Desk["about"]> | null };
    netlist: NetsKnown & { refusals: import("../convert/index.js").Refusal[] };
    check: { findings: Checked | null; isStopped?: true };
    stop: Board.Nothing;
    near: { near: ReturnType<Desk["nextTo"]> };
  }
  type ToNets = Question<NetsAsked>;
  type FromNets = Reply<NetsAnswered[keyof NetsAnswered]> | { kind: "checking"; checking: { what: string; done: number } };

  // ---- The worker that converts and unpacks (converting_worker.js) ----

  interface ConvertingAsked {
    first: { layer: Board.LayerKind; bytes: Uint8Array };
    converted: { layer: Board.LayerKind; bytes: Uint8Array; choices: Choices };
    ways: { layer: Board.LayerKind; bytes: Uint8Array };
    unpack: { bytes: Uint8Array; archive: string };
  }
  interface ConvertingAnswered {
    first: { choices: Choices; converted: Converted };
    converted: Converted;
    ways: { choices: Choices; words: string[] }[];
    unpack: Awaited<ReturnType<typeof import("../zip/index.js").filesOfArchive>>;
  }
  type ToConverting = Question<ConvertingAsked>;
  type FromConverting = Reply<ConvertingAnswered[keyof ConvertingAnswered]>;

  // ---- The worker that compares two boards (comparing_worker.js) ----

  interface ComparingAsked {
    open: { module: Uint8Array };
    // (a board by its files, or by the lines of one that is open)
    side: { at: number; title: string; files?: import("../board/index.js").BoardFile[]; board?: import("./compared_side.js").BoardLines; depth?: number };
    mend: { at: number; place: number; bytes: Uint8Array | null; words: string };
    pairs: {};
    pair: { at: number; pitch: number };
    summary: { outcomes: string[] };
    place: { pair: number; place: number; width: number; height: number; zoom?: number };
  }
  interface ComparingAnswered {
    open: Board.Nothing;
    side: { count: number; leftOut: string[]; refused: { place: number; kind: Board.LayerKind; name: string; bytes: Uint8Array; reply: string }[] };
    mend: { reply: string | null };
    pairs: { pairs: { title: string; files: [string, string] }[]; onlyFirst: AloneLayer[]; onlySecond: AloneLayer[] };
    pair: import("./compared_boards.js").PairRow;
    summary: { words: string };
    place: import("./compared_boards.js").PlaceShown;
  }
  interface AloneLayer { title: string; file: string }
  type ToComparing = Question<ComparingAsked>;
  type FromComparing = Reply<ComparingAnswered[keyof ComparingAnswered]>;
}

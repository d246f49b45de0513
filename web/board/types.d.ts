// The shapes of what is said of a board. It is for tsc alone (.ci/javascript). Lengths are in nm, colours `#rrggbb`, and a name that
// begins with `is` or `has` is true or false.

declare namespace Board {
  /** What is drawn on: the canvas of the board, or one beside the page. */
  type Context = Omit<CanvasRenderingContext2D, "canvas">;
  /** A box of the board. */
  interface Box { left: number; low: number; right: number; high: number }
  /** A point of the board; or a place of the canvas, in device pixels. */
  interface Point { x: number; y: number }
  /** A point of the board, as the words of an item have it. */
  type Pair = [x: number, y: number];
  /** How the board is turned: in quarters counterclockwise, after it is mirrored left to right where it is seen from below. */
  interface Turned { quarters: number; isMirrored: boolean }
  type LayerKind = "gerber" | "drill";

  // ---- The words of items, taken apart (items.js, sides.js, shapes.js) ----

  /** A side of a region: a line, or an arc about a centre. */
  interface Segment { kind: string; to: Pair; centre: Pair | null }
  interface Flash { kind: "flash"; number: number; points: [at: Pair]; turn: string; polarity: string }
  interface Draw { kind: "draw"; number: number; points: [from: Pair, to: Pair]; turn: string; polarity: string }
  type FlashOrDraw = Flash | Draw;
  interface ArcItem { kind: "arc"; number: number; points: [from: Pair, to: Pair, centre: Pair]; direction: string; polarity: string }
  interface Hit { kind: "hit"; number: number; points: [at: Pair] }
  interface Rout { kind: "rout"; number: number; points: [start: Pair, ...more: Pair[]] }
  /** A region has no number of an aperture, and it alone has segments. */
  interface Region { kind: "region"; number: null; points: [start: Pair]; polarity: string; segments: Segment[] }
  type Item = FlashOrDraw | ArcItem | Hit | Rout | Region;
  /** A line, or where it has a centre an arc. */
  interface Side { from: Pair; to: Pair; centre?: Pair; isClockwise?: boolean }
  interface Arc extends Side { centre: Pair }
  /** One side at least. */
  type Sides = [Side, ...Side[]];
  /** Sides that a round pen follows; `isFilled` where what they enclose belongs to it. */
  interface Shape { sides: Sides; radius: number; isFilled: boolean }
  /** How far two are from one another, and by which points; `pitch` where that is by pixels. */
  interface Gap { distance: number; from: Pair; to: Pair; pitch?: number }
  /** An aperture, block or tool; `shape` is a name where it is simple, and a width of 0 is one that is not known. */
  interface Entry { number: number; words: string; width: number; height: number; shape: string | null; hasHole: boolean; definition: string }
  /** A path on the board, and the width that is stroked along it. */
  interface Outline { path: Path2D; width: number }

  // ---- What the worker of a station is asked of its board, by kinds, and what it answers (web/worker/main.js; web/machine asks) ----

  /** An item by its layer's name and its place in that layer's list. */
  interface Place { name: string; place: number }
  /** An item as the worker lists it; its box is four numbers, or empty. */
  interface Listed extends Place { words: string; box: string }
  /** What items are alike by: the number of an aperture or tool, or a kind. */
  interface Alike { name: string; key: string }
  /** What items share, by its kind and its own name among those of the kind (web/telling/search_index.js). */
  interface Share { kind: "net" | "component" | "pin" | "aperture" | "tool" | "attribute"; id: string }
  /** A layer or picture that is compared. */
  interface Compared { name: string; label: string; isOpened: boolean }
  /** A line for the station, with the bytes of its file where it is a load. */
  interface Sent { line: string; bytes?: Uint8Array | undefined }
  /** What the worker is told of the layers, so that it can speak of them. */
  interface Telling {
    unit: string; layers: { name: string; label: string; shows: string; kind: LayerKind; fileName: string }[];
  }
  interface Asked {
    lines: { isGroup: boolean; lines: Sent[] };
    boxes: { names: string[] };
    look: { places: Place[]; entries: string[]; attributes: string | null; list: { name: string; from: number } | null };
    under: Point & { pile: string[]; below: Place | null };
    pile: Point & { pile: string[] };
    inside: { names: string[]; box: Box; most: number };
    touched: { names: string[]; box: Box; most: number };
    like: { by: string; of: Alike[]; most: number };
    gap: { pair: { name: string; words: string }[] };
    tally: { names: string[]; lit: { name: string; number: number } | null };
    lit: { of: Share } & Telling;
    shared: { of: Share; most: number } & Telling;
    dropped: { files: { id: string; bytes: Uint8Array }[] };
    withAttributes: { depth: number; entries: Sent[]; layers: { name: string; canonical: Uint8Array }[] };
    compare: { steps: number; colours: string[] };
    compareView: { steps: number; colours: string[] };
    compareTwo: { pair: [Compared, Compared]; names: string[] };
    compareTwoView: { names: string[]; colours: string[] };
    pictures: { names: string[]; line: string };
    picture: { name: string; picture: import("../bytes/index.js").Picture | null; line?: string };
    whole: { name: string; names: string[] };
    stop: {};
  }
  /** What a line came to: its reply, and the bytes of a plot or a text. */
  interface Applied { code: number; reply: string; bytes?: Uint8Array | null }
  type Nothing = Record<string, never>;
  interface Lines { answers: Applied[]; isStopped: boolean }
  interface Boxes { boxes: string[] }
  interface Places { places: Place[] }
  interface Looked {
    layers: string[]; items: ({ words: string; box: string } | null)[]; entries: Record<string, string[]>;
    attributes: { name: string; lines: string[] } | null; list: { name: string; from: number; words: string[] } | null;
  }
  /** How many items each number of a layer has, by their kinds, and those that are lit. */
  interface Tallies {
    layers: Record<string, { counts: Record<string, Record<string, number>>; entries: string[] }>; lit: Listed[] | null;
  }
  /** An answer in words; or why the files can't be read for it. */
  interface Answer<T> { found: T | null; why: string | null }
  /** A picture of a comparison in the colours of its parts. */
  interface Sheet { bitmaps: ImageBitmap[]; count: number }
  /** The pixels of the view that are in both, in the first alone and in the second alone. */
  interface Sighted { sheets: Sheet[]; window: string; samples: number }
  /** The same, or that there is no view. */
  type Seeable = Sighted | { sheets: null };
  /** `isWhole` where what was undone for it was made again. */
  type Sheets = { isWhole: boolean } & Seeable;
  /** What the layers differ in from some steps before: of so many in all. */
  type Different = { differing: { name: string; box: Box | null }[]; count: number; box: Box | null } & Seeable;
  /** Null where so many steps cannot be undone. */
  type Differing = { isWhole: false } | { isWhole: boolean; differing: null } | { isWhole: boolean } & Different;
  /** How many pixels two have in both and alone; null where these cannot be compared. */
  interface Counted { counts: number[]; box: Box | null; window: string; isWhole: boolean; isSameText: boolean | null }
  type Counts = Counted | { counts: null };
  interface Answered {
    lines: Lines; boxes: Boxes; look: Looked; under: { found: Place | null }; pile: { items: Listed[]; isMore: boolean };
    inside: Places; touched: Places; like: Places; gap: { gap: Gap | null }; tally: Tallies;
    lit: Answer<{ items: Listed[]; count: number; entries: Record<string, string[]> }>; shared: Answer<Places & { count: number }>;
    dropped: { files: { id: string; words: string[] }[] };
    withAttributes: { files: { name: string; bytes: Uint8Array | null; why?: string }[] };
    compare: Differing; compareView: Sheets; compareTwo: Counts; compareTwoView: Sheets;
    pictures: { pictures: Uint8Array[] | null }; picture: Nothing; stop: Nothing;
    whole: { items: string[]; own: string; boxes: string[] };
  }
}

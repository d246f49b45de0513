// What the page's modules hand one another. It is for tsc alone (.ci/javascript), and nothing of it is in the page.

declare namespace Page {
  type Runner = import("./runner.js").Runner;
  type View = import("./view.js").View;
  type Marks = import("./marks.js").Marks;
  type Link = import("./station.js").Link;
  type Kept = import("./kept.js").Kept;
  /** A part of the board from its upper left corner: `pitch` is the nm of a pixel, the sides are in pixels. */
  interface Frame { left: number; top: number; pitch: number; width: number; height: number }

  type Choices = import("../worker/index.js").Choices;
  type Converted = import("../worker/index.js").Converted;
  /** What a pointer's point snaps to. */
  interface Snap extends Board.Point, Machine.Place { kind: string; distance: number }

  // ---- The boards of a browser (store.js, holding.js, boards.js) ----

  /** What is kept of which boards there are: the window that has it or had it last, and who writes it; `from` is its database of before. */
  interface BoardRecord { number: number; title: string | null; shown: number; hasContents?: boolean | undefined; window: string | null; holder: string | null;
    isFound?: boolean; from?: string }
  /** A board as the store lists it: `isBlank` where nothing is in it, `isFound` where no list had it. */
  interface Listing extends BoardRecord { key: string; isBlank: boolean; isUnlisted?: boolean }
  /** What a board's journal writes of it into its record. */
  interface Titled { key: string; number: number; title: string | null; shown: number; hasContents?: boolean | undefined }
  /** A board of this window; without a state where it was not shown yet. */
  interface Board extends Titled {
    state: Machine.State | null; link?: Link | null; kept: Kept; view?: Machine.Seen; isTaken?: boolean; reading?: number;
  }
  interface Stores { boards: IDBObjectStore; lines: IDBObjectStore; files: IDBObjectStore; looks: IDBObjectStore }
  /** What windows tell one another: that one asks for a board, hands it over or refuses, and that there is something new. */
  type Between = { kind: "ask"; key: string; from: string } | { kind: "handing"; key: string; to: string }
    | { kind: "refused"; key: string; to: string; why: string } | { kind: "news" };
  interface Channel { postMessage(message: Between): void; onmessage: ((event: MessageEvent<unknown>) => void) | null }
  /** What the page needs of the browser to keep its boards (platform.js). */
  interface Platform {
    window: string; isFresh: boolean; locks: LockManager | null; newName(): string; openChannel(name: string): Channel; database(): IDBFactory;
    range(from: IDBValidKey, to: IDBValidKey): IDBKeyRange; now(): number; pause(ms: number): Promise<void>;
    inTime<T>(promise: Promise<T>, ms: number): Promise<T>;
  }
  /** What shows a board (main.js). */
  interface Desk {
    openStation(): Promise<void>; keepLooks(): void; contents(): Machine.Contents | null; changed(): void; seen(): Machine.Seen;
    show(seen: Machine.Seen | null): void;
  }

  /** What a type is given by, and not found from. */
  type Given<T> = [T][T extends unknown ? 0 : never];
  /** A check of each part of a type (stored.js). */
  type Checks<T> = { [K in keyof Required<Given<T>>]: (value: unknown) => boolean };

  // ---- The board on the screen (view.js, composed.js, marks.js, pointer.js) ----

  /** A custom property of the style, as a colour. */
  type Ink = (name: string) => string;
  interface Colours { board: string; undrawn: string }
  type Ruler = "across" | "down";
  /** A picture of the station on the board; without a bitmap it is empty. */
  interface Layered { bitmap: ImageBitmap | null; left: number; top: number; pitch: number; opacity?: number }
  /** Rows of a picture: the first one, and the one behind the last. */
  interface Rows { from: number; to: number }
  /** What was changed by an edit, across all of the board, in nm. */
  interface Touched { top: number; low: number }
  /** Paints what lies in a frame, whose sides are those of the context. */
  type Painter = (context: Board.Context, frame: Frame) => void;
  /** The composed picture, in bands of so many rows. */
  interface Composing extends Frame { rows: number; bands: { bitmap: ImageBitmap; from: number }[]; paint: Painter; start: number; touched: readonly Touched[] | null }
  /** The picture of long outlines: of which view, what and in which ink. */
  interface OutlineSheet { canvas: OffscreenCanvas; left: number; top: number; pitch: number; ink: string; items: Board.Outline[]; view: number[] }
  /** An item that is shown before it is there. */
  interface Previewed { words: string; name: string; box?: Board.Box | null }
  /** A place that is gone to: `zoom` is the nm of a pixel of the page. */
  interface Goal extends Board.Point, Partial<Board.Turned> { zoom?: number | null }
  /** What the pointer drags, by its kind: since where and when, and how far it may go in a click. */
  type Drag = Dragged & ({ kind: "pan" | "measure" | "tap" | "net" | "draw" | "box" } | { kind: "grip"; grip: import("./grips.js").Grip });
  interface Dragged {
    at: Board.Point; from: Board.Point; start: Board.Point; still: number; hasMoved: boolean; isAdded?: boolean; isMenu?: boolean; isHeld?: boolean;
  }

  // ---- Between the page and its worker, but for what the machine asks (view.js, main.js) ----

  /** The view that the worker draws: a line of a script, and its layers, the topmost first. */
  type Wanted = Worker.Wanted;
  /** A side of the board as it will be made, of layers with what they show, what their files say of that, and which tools these call not plated. */
  type Side = Worker.MadeSide;
  /** A side that came: what lacks. */
  interface MadeSide { side: "top" | "bottom"; lacks: string[] }
  /** A picture that came: of the window, or where `place` says. */
  type Came = Worker.Came;
  type News = Worker.News | Machine.Events["answer"];
  /** How far a check of the nets' worker is. */
  type NetsNews = Extract<Worker.FromNets, { kind: "checking" }>;
  /** How far a drawing is: so many layers, and a part of the next one. */
  type Progress = Worker.Progress;
  /** What the worker of the nets says of lines: what they joined and cut, in so many ms. */
  interface NetsHeard extends Machine.About { changes: NetChanges | null; ms: number }
  interface NetChanges { joins: Joined[]; cuts: Joined[]; before: number; after: number }
  interface Joined { names: string[]; nets: number[]; place: Machine.NetPlace | null }

  // ---- The page's elements and parts (dom.js, main.js) ----

  /** The elements of index.html that are more than an HTMLElement. */
  interface Ids {
    board: HTMLCanvasElement; files: HTMLInputElement; folder: HTMLInputElement; grid: HTMLInputElement; line: HTMLInputElement;
    "search-place": HTMLInputElement; boards: HTMLDialogElement; "nets-on": HTMLInputElement; "nets-gap": HTMLInputElement; unit: HTMLSelectElement; "made-mask": HTMLSelectElement; "made-finish": HTMLSelectElement;
    first: HTMLSelectElement; second: HTMLSelectElement; "new-polarity": HTMLSelectElement; "new-turn": HTMLSelectElement;
    "new-direction": HTMLSelectElement; "nets-pitch": HTMLSelectElement; items: HTMLOListElement; "items-panel": HTMLDetailsElement;
    "drills-panel": HTMLDetailsElement; "find-text": HTMLInputElement; about: HTMLDialogElement; "apertures-panel": HTMLDetailsElement; question: HTMLDialogElement; keys: HTMLDialogElement;
    palette: HTMLDialogElement; "palette-words": HTMLInputElement; "nets-check": HTMLButtonElement;
  }
  type ById = <K extends string>(id: K) => K extends keyof Ids ? Ids[K] : HTMLElement;
  /** What the machine asks of the page, by the kinds of its messages. */
  type Tasks = { [K in Exclude<keyof Machine.ToPage, "finished" | "opened" | "named">]: (message: Machine.ToPage[K]) => unknown };
  /** Hears that a journal keeps nothing any more, as where another window took its board. */
  type Warn = (event: { kind: "lost"; why: string; isTaken?: boolean }, kept: Kept) => unknown;
  /** Allows the first answer of a question, or not. */
  type Allow = (isAllowed: boolean) => void;
  /** What actions work on (commands.js). */
  interface Parts {
    machine: Runner; view: View; marks: Marks; pointer: import("./pointer.js").Pointer; panels: import("./panels.js").Panels;
    going: import("./going.js").Going; boards: import("./boards.js").Boards; held: import("./held_move.js").HeldMove; palette: import("./palette.js").Palette;
    keepLooks(): void;
  }
  /** A command: `why` says why it cannot be done now, `word` is what its button has. */
  interface Action {
    id: string; group: string; label: string; keys: string[]; word: string; run(event: MouseEvent | KeyboardEvent): unknown;
    why?: ((state: Machine.State) => string | null) | undefined;
  }

  // ---- Questions to the person, and the answers (questions.js of the page) ----

  /** How a question is asked; `end` is called when it is not open any more. */
  interface Dialogue {
    title: string; parts: Node[]; choices: [label: string, value: string][]; answer?(): Partial<Machine.Replied>; end?(): void;
  }
}

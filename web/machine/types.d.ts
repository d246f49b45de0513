// The state of the machine, and what it hears and sends, by kinds: gestures of a person, events, questions, and messages to the
// worker, to what keeps and to the page. It is for tsc alone (.ci/javascript).

declare namespace Machine {
  type Turn<K extends Gesture["kind"] = never> = import("./turn.js").Turn<K>;
  type Steps = import("./steps.js").Steps;
  /** The part of the board that a page showed when it was left. */
  interface Seen extends Board.Turned { left: number; top: number; pitch: number; fitted?: Board.Box | null }
  /** A file that was opened; `path` has the folders of its archive. */
  type File = import("../zip/index.js").PackedFile;
  /** A picked item; `id` is the pick's own for as long as it lasts. */
  interface Picked extends Place { id: number; words: string; box: Board.Box | null }

  // ---- The state of the machine (state.js) ----

  /** What follows from what a layer shows: `value` is what its file function says, null where the file alone tells it. */
  interface Following { label: string; colour: string; height: number; shows?: string | undefined; value: string | null }
  /** How a layer looks; `origin` is its path in an archive, `toldBy` what told what it shows. */
  interface Look {
    label: string; colour: string; height: number; opacity: number; isShown: boolean; file?: string | undefined; origin?: string | undefined;
    shows?: string | undefined; toldBy?: string | undefined;
  }
  interface Layer extends Look { name: string; kind: Board.LayerKind; items: number; entries: number; by?: Following | undefined; base?: Following }
  /** A line of the script with its reply; of a load with the path, the number of its file and the layer's look. */
  interface Told { line: string; reply: string; path?: string; file?: string; layer?: Partial<Look>; isSave?: boolean }
  /** A picture beside the layers: `of` names the layer that it is of, `window` is a line of a script. */
  interface Picture {
    name: string; label: string; of: string | null; window: string; file: string; isInside: boolean; isOpened: true; isShown: boolean;
    opacity: number; colour: string;
  }
  /** A file that is loaded as a layer, and under which name where that is free. */
  interface Recognised {
    kind: Board.LayerKind; wanted: string; label: string; colour: string; height: number; isShown: boolean; fileName: string;
    origin: string; toldBy?: string | undefined;
  }
  /** What a number of a refusal means, and what to do about it. */
  interface Explained { name: string; text: string }
  /** Whether a refused file can be converted as it stands, why not, and the names of the choices that it asks for. */
  interface Offer { isAble: boolean; why: string; asks: string[] }
  /** A file that was refused: `isPending` where it is still to be asked about. */
  interface Refused {
    id: number; file: string; layer: Recognised; reply: string; opening: number | undefined; isTried: boolean; offer: Offer | null; note: string;
    isPending?: boolean;
  }
  /** What becomes of files that were opened together: `trying` counts the refused ones that are still tried. */
  interface Opening {
    opened: string[]; refused: { id: number; name: string; reply: string }[]; others: string[]; faults: string[]; pictures: number;
    converted: number; trying: number; leftClosed: number; wasEmpty: boolean | null; isAllowed: boolean; isDone: boolean; job: string | null;
  }
  /** What is drawn of a layer, or of a picture beside them. */
  interface Shown { name: string; label: string; colour: string; opacity: number; isOpened?: boolean }
  /** What is compared: the board with what it was `back` steps before, or the `pair`; `whole` is the window around both of that. */
  type Comparison = ComparisonBefore | ComparisonOfTwo;
  interface AnyComparison {
    title: string; said: string; differing: { name: string; box: Board.Box | null }[]; box: Board.Box | null;
    counts: { colour: string; words: string }[]; pixels: string; window: string | null; sheets?: Sheet[] | null;
    place?: { left: number; top: number; pitch: number } | null;
  }
  interface ComparisonBefore extends AnyComparison {
    kind: "before"; back: number; view?: string; pair?: undefined; whole?: undefined; layers?: undefined;
  }
  interface ComparisonOfTwo extends AnyComparison {
    kind: "two"; pair: [Compared, Compared]; whole: string; view?: string; layers: readonly (Shown & { isShown: boolean })[]; back?: undefined;
  }
  /** What a table tells of a layer: how many items each number has, by their kinds. */
  interface Tally { counts: Record<string, Record<string, number>>; entries: Board.Entry[] }
  /** All items of a number, which a table lights; null until they are found. */
  interface Lit { name: string; number: number; items: (Place & { words: string; box: Board.Box | null })[] | null }
  /** The tables of tools and apertures: of the script as it was, `told`. */
  interface Tables { isDrill: boolean; isApertures: boolean; told: Told[] | null; found: Record<string, Tally>; lit: Lit | null }
  /** What items share, as the board's index has it (web/telling/search_index.js). */
  type Shared = import("../telling/index.js").Alike;
  /** An item in words, with what it shares with others. */
  interface Words extends Place { head: string; rows: [name: string, value: string][]; line: string; sentence: string; alike: Shared[]; box: string }
  /** All items that share something, so many as are lit, of the script as it was. */
  interface Found {
    of: Shared; told: Told[]; items: (Place & { words: string; box: Board.Box | null })[]; entries: Record<string, Board.Entry[]>;
  }
  /** A result of finding; only a place has one, and it lights nothing. */
  type FoundResult = (Shared & { place: null; detail: string; items: number })
    | { kind: "place"; place: Board.Pair; id: string; text: string; detail: string; items: number };
  /** What a text finds. */
  interface Finds {
    query: string; count: number; shown: number;
    groups: { kind: Shared["kind"] | "place"; count: number; results: FoundResult[] }[];
  }
  /** What lies at a point, of the script as it was, `told`. */
  interface Menu extends Board.Point { items: (Place & { words: string; box: string })[]; isMore: boolean; told: Told[] }
  /** A copied item: its words, its layer with its file, null in another board, and the definition of its aperture or tool, in short `entry`. */
  interface Copied { words: string; from: string | null; definition: string | null; entry: string }
  /** The points of what is drawn, and the centre of the arc that the next one ends. */
  interface Drawn { points: (Board.Point & { centre?: Board.Point; direction?: string })[]; centre: Board.Point | null }
  /** What the browser keeps, and what it was not given yet (keeping.js). */
  interface Keeping {
    count: number; records: Told[][]; files: string[]; isWaiting: boolean; isAnew: boolean; why: string | null; isLost: boolean; isOpen: boolean;
  }
  /** What is known of the nets (nets_panel.js), as web/worker/nets_worker.js tells it: `shown` has the layers' names by their numbers. */
  interface Nets {
    isOn: boolean; pitch: number; why: string | null; marks: Map<object, NetChange>; about: About | null; lit: LitNet | null;
    near: { names: string[]; distance: number; place: NetPlace }[] | null; change: NetChange | null; findings: Findings | null;
    isBefore: boolean; led: import("../nets/index.js").Finding | null;
    netlist: { name: string; refusals: { line: number; what: string }[] } | null;
  }
  interface NetPlace extends Board.Point { layer: number }
  interface NetChange { kind: string; words: string; places: { place: NetPlace }[]; ms?: number }
  interface LitNet { net: number; at: Board.Point; runs: Uint32Array[]; areas: number[]; names: string[]; holes: number; pins: string[] }
  interface About {
    count: number | null; shown: string[]; copper: number; missing: string[]; points: number; isNetlist: boolean; shift: Board.Point; pitch: number;
    window: Board.Point & { pitch: number; height: number };
  }
  /**
   * What a check found (web/worker/checked_board.js): all findings, the copper without a point, what could not be checked, which rules were
   * checked again, under which limits, and the copper layers' names.
   */
  interface Findings {
    findings: import("../nets/index.js").Finding[]; loose: import("../nets/index.js").Loose[]; unchecked: import("../nets/index.js").Unchecked[];
    again: string[]; limits: [string, number][]; labels: string[]; pitch: number; points: number; count: number; misfit: string | null; ms: number;
  }
  /** What the check is asked (checks_panel.js of the page): the limits of the rules in nm, and what was accepted. */
  interface Checks { name: string | null; limits: [string, number][]; accepted: import("../nets/index.js").Kept[]; by: string }
  /** A tool that draws: so many points, or null for as many as a person wants, `least` at least; the words of the item of them. */
  interface DrawingTool {
    label: string; kind: Board.LayerKind; count: number | null; least?: number; hasArcs?: boolean; hint?: string;
    /** Null where the points are too few. */
    words(points: Drawn["points"], settings: Settings): string | null;
  }
  /** Whether the station is open; `why` it stopped, where it did. */
  type Station = { isOpen: true; why: null } | { isOpen: false; why: string | null };
  /** All that the page knows. */
  interface State {
    layers: Layer[]; told: Told[]; steps: Steps; saved: Record<string, Way>; unsaved: number; hasWindow: boolean;
    picked: Picked[]; click: (Board.Point & { id: number }) | null; copied: Copied[];
    active: string | null; entry: number | null; entries: Record<string, Board.Entry[]>; attributes: Record<string, string[]>;
    list: { isOpen: boolean; from: number; words: string[]; name: string | null };
    tool: string; making: Drawn | null; grid: number; unit: string; polarity: string; turn: string; direction: string;
    hasSnaps: boolean; origin: Board.Point | null; menu: Menu | null; gap: { picked: Picked[]; found: Board.Gap | null } | null; tables: Tables;
    inWords: { id: number; told: Told[]; unit: string; words: Words | null; why: string | null } | null; lit: Found | null; job: { name: string; bytes: Uint8Array } | null;
    made: Made; isOutlined: boolean; comparison: Comparison | null; files: Record<string, File>; paths: Record<string, string>; opened: Picture[]; windows: string[];
    refused: Refused[]; openings: Record<number, Opening>; dropped: Record<string, string[]>; questions: Question[];
    queue: Gesture[]; work: Work | null; station: Station;
    kept: Keeping; spoiled: { line: string; reply: string }[]; faults: string[];
    shownBefore: Set<string> | null; isLeaving: boolean; nets: Nets; checks: Checks; said: { text: string; isFault: boolean }; next: number;
  }
  /** The side of the board as it will be made: the colour of its mask and its finish by their names (web/materials/colours.js). */
  interface Made { isShown: boolean; mask: string; finish: string }
  /** An edit on the way that edits have led (steps.js), and those before it; `step` is the same of all edits of a step. */
  interface Way { before: Way | null; length: number; layer: string | null; step: object | null; functions: Said | null }
  /** What edits have said of the functions of layers, the last one first. */
  interface Said { before: Said | null; layer: string; fields: string | null }
  /** A step that can be undone or redone: its lines, and the way before and behind it. */
  interface Step { lines: string[]; words: string; from: Way; at: Way }
  /** The open group: its lines, the way before it, and the step that it becomes. */
  interface Group { lines: string[]; from: Way; step: object }

  // ---- What is kept of how the page looks (looks.js) ----

  interface Looks {
    look?: string; view?: Seen; face?: Uint8Array | null; bytes?: number; grid?: number; unit?: string; active?: string | null; polarity?: string;
    turn?: string; direction?: string;
    made?: Made; isOutlined?: boolean; layers?: Omit<Layer, "items" | "entries">[]; registry?: OlderRegistry; job?: State["job"]; checks?: Checks;
  }
  /** Which boards a page of before had beside the first, and which it showed (older_store.js). */
  interface OlderRegistry { boards: { key: string; number: number; title: string | null }[]; shown: string; count: number; isFirstGone: boolean }

  // ---- Gestures: what a person does that changes the station or asks it, one after another (kinds.js) ----

  interface Gestures {
    choose: { name: string };
    close: { name: string };
    closeAll: {};
    compare: { back: number };
    compareTwo: { names: string[] };
    compareView: {};
    copy: {};
    dropped: {};
    fit: { names?: string[] };
    gap: {};
    give: { form: string; pitch: number };
    keep: { isAnew?: boolean };
    light: { of: Shared | null; isLed?: boolean; isAgain?: boolean };
    lines: { lines: string[]; window?: string; isAllowed?: boolean };
    list: { from?: number; isOpen?: boolean; by?: number };
    /** A file that was recognised, or what a refused one was converted to; or one that came with its name and path. */
    load: { file: string } & ({ layer: Recognised; refused?: number }
      | { layer: { kind: Board.LayerKind }; given: { name: string; path: string }; refused?: undefined });
    opened: { opening: number };
    pickAt: Board.Point & { reach: number; pile: string[]; isAdded: boolean };
    pickIn: { box: Board.Box; pile: string[]; isAdded: boolean; isTouched?: boolean };
    pickLike: { by: string; of?: Alike[] | null };
    pickListed: { menu: Menu; item: Place; isAdded: boolean };
    pickShared: { of: Shared };
    picks: { isAdded?: boolean; isShown?: boolean; isLed?: boolean } & ({ places: Place[]; all?: undefined } | { all: string | null; places?: undefined });
    picture: { label: string; file: string; of: string | null; window: string | null; isShown?: boolean; opacity?: number; colour?: string; isInside?: boolean };
    pile: Board.Point & { pile: string[] };
    plot: { names: string[]; pitch: number; form: string };
    replay: { isFitted?: boolean; isAgain?: boolean };
    save: { name?: string; isWhole?: boolean };
    script: {};
    seek: {};
    tally: { changes?: Partial<Tables> };
    whole: { name: string };
  }
  /** The edits by their verbs (edits.js). */
  interface Verbs {
    move: { dx: number; dy: number };
    delete: {};
    polarity: { value: string };
    aperture: { number: number };
    tool: { number: number };
    diameter: { name: string; number: number; nm: number };
    reorder: { to: number; by?: undefined } | { by: number; to?: undefined };
    insert: { words: string; active: string | null; again?: Again };
    paste: { dx: number; dy: number };
    turn: { turn: string };
    array: { columns: number; rows: number; dx: number; dy: number };
    align: { to: Alignment };
    reshape: { was: string; words: string | null };
    setattr: { name: string; key: string; fields?: string };
    dropattr: { name: string; key: string };
    function: { name: string; shows: string };
    undo: {};
    redo: {};
  }
  /** What picked items are aligned by: a side of their boxes, or their middles. */
  type Alignment = "left" | "right" | "top" | "bottom" | "upright" | "level";
  /** What new items are drawn with. */
  interface Settings { entry: number; polarity: string; turn: string; direction: string; grid: number }
  /** How an item was drawn, so that it can be drawn with the apertures of another layer. */
  interface Again { tool: string; settings: Settings; making: Drawn | null; last: Tapped | null }
  /** A point that a tool takes; one that snapped to an item goes to no grid. */
  interface Tapped extends Board.Point { isSnapped?: boolean | undefined; isCentre?: boolean | undefined }
  /** What any gesture may have: who waits for it, the files that it needs, their opening, and whether it came with the page. */
  interface Common { id?: number | string; opening?: number | undefined; file?: string; files?: string[]; isGiven?: boolean }
  type EditOf<V extends keyof Verbs> = Common & { kind: "edit"; verb: V; of?: number[] } & Verbs[V];
  type Edit = { [V in keyof Verbs]: EditOf<V> }[keyof Verbs];
  type Gesture = { [K in keyof Gestures]: Common & { kind: K } & Gestures[K] }[keyof Gestures] | Edit;
  type GestureOf<K> = Extract<Gesture, { kind: K }>;
  /** What an edit makes: lines, what is picked behind them, and what else changes; or why there are none. */
  type Outcome = { lines: string[]; places?: Place[]; changes?: Partial<State> } | { why: string };
  /** All items of a layer in their words, its box, and that of all layers. */
  interface Whole { items: string[]; box: Board.Box; all: Board.Box }
  /** A turn about the middle of the layer, of all layers, or about the zero point; and then a move in nm. */
  interface LayerChange { turn: string; about: "layer" | "all" | "zero"; dx: number; dy: number }
  /** Where an item went in its layer's list: `from` is null where it comes in, `to` where it goes. */
  interface Shift { name: string; from: number | null; to: number | null }
  /** What came of a gesture, for who waits for it. */
  interface Result { isWell: boolean; answers?: Applied[] }
  /** A window of the station: its lower left corner, its pitch and its sides in pixels. */
  interface Area { left: number; low: number; pitch: number; width: number; height: number }
  /** Of each step that was done or undone, and of the open group, whether the station has it (replay.js). */
  interface Real { done: boolean[]; undone: boolean[]; group: { isAny: boolean; isReal: boolean } | null }

  // ---- What the worker is asked, and what it answers: by the types of the board (web/board/types.d.ts) ----

  type Place = Board.Place;
  type Alike = Board.Alike;
  type Compared = Board.Compared;
  type Sheet = Board.Sheet;
  type Telling = Board.Telling;
  type Answer<T> = Board.Answer<T>;
  type Asked = Board.Asked;
  type Sent = Board.Sent;
  type Applied = Board.Applied;
  type Listed = Board.Listed;
  type Lines = Board.Lines;
  type Boxes = Board.Boxes;
  type Places = Board.Places;
  type Looked = Board.Looked;
  type Sighted = Board.Sighted;
  type Seeable = Board.Seeable;
  type Sheets = Board.Sheets;
  type Counted = Board.Counted;
  type Counts = Board.Counts;

  type ToWorker = { [K in keyof Asked]: { number?: number; kind: K } & Asked[K] }[keyof Asked];
  /** Lines of a gesture: all of a group or none. */
  interface Batch { number: number; isGroup: boolean; lines: Sent[] }
  /** What the layers differ in from some steps before: of so many in all. */
  type Different = { differing: AnyComparison["differing"]; count: number; box: Board.Box | null } & Seeable;
  /** Null where so many steps cannot be undone. */
  type Differing = { isWhole: false } | { isWhole: boolean; differing: null } | { isWhole: boolean } & Different;
  /** The page has handed something out, or why it could not. */
  interface Handed { why: string | null }

  // ---- Questions to the person, and the answers (questions.js of the page) ----

  interface Questions {
    anew: {};
    array: { of: number[] };
    close: { label: string; unsaved: number };
    closeAll: { unsaved: number; count: number };
    convert: { refused: number };
    convertAll: { refused: number[] };
    give: {};
    go: {};
    history: { steps: number };
    place: { label: string; width: number; height: number; box: Board.Box };
    plot: {};
    whole: { label: string; isDrill: boolean; count: number; repeats: number; box: Board.Box; all: Board.Box };
  }
  /** `gesture` is the one that waits for the answer, `opening` the one that the question belongs to. */
  type Question = { [K in keyof Questions]: { kind: K; id?: number; gesture?: number | string | undefined; opening?: number | undefined } & Questions[K] }[keyof Questions];
  type QuestionOf<K> = Extract<Question, { kind: K }>;
  /** An answer: `value` is what was chosen, and of "yes" what stands in the dialogue, or why that cannot be used. */
  interface Replied {
    question: number; value: string | null; why?: string | null; bytes?: Uint8Array | null; made?: { id: number; bytes: Uint8Array }[];
    names?: string[]; pitch?: number; form?: string; columns?: number; rows?: number; dx?: number; dy?: number; place?: Board.Point | null;
    window?: string | null; change?: LayerChange;
  }

  // ---- Events: what the machine is told (step.js) ----

  /** Those that ask nothing of the station (immediate.js). */
  interface Immediate {
    ask: { question: Question };
    close: { name: string };
    dismiss: {};
    endMaking: {};
    escape: {};
    fault: { why: string };
    function: { name: string; shows: string };
    keepAgain: {};
    layer: { name: string; changes: Partial<Layer> };
    lead: { name: string | null; box: Board.Box | null };
    leave: {};
    lost: { why: string; isOpen?: boolean };
    offer: { refused: number };
    offerAll: { refused: number[] };
    only: { name: string };
    picture: { name: string; changes: Partial<Picture> };
    point: Tapped;
    raise: { name: string; by: number };
    restarted: {};
    say: { text: string; isFault?: boolean };
    setting: { changes: Partial<State> };
    show: { name: string | null; isShown: boolean };
    showPicked: {};
    started: {};
    stop: {};
    toggle: {};
    tool: { name: string };
    tried: { refused: number; isAble: boolean | null; why?: string; asks?: string[] };
  }
  interface Events extends Immediate {
    begin: { kept: Journal; contents: Contents | null };
    gesture: { gesture: Gesture };
    open: { files: File[]; areNamed?: boolean; faults?: string[]; token: string };
    answer: { number: number; answer: Heard | Looked };
    kept: { number: number } & Written;
    replied: Replied;
    stopped: { why: string | null };
    openAgain: {};
    broken: { why: string };
  }
  type Event = { [K in keyof Events]: { kind: K } & Events[K] }[keyof Events];
  type Handlers<E> = { [K in keyof E]: (turn: Turn, event: E[K]) => unknown };
  /** Whether the journal has what it was handed, or why not. */
  interface Written { isKept: boolean; isLost?: boolean; why?: string }
  /** What the browser had kept, or why it has nothing (kept.js of the page). */
  interface Journal {
    records: Told[][]; files: [id: string, bytes: Uint8Array][]; looks: Looks | null; waiting: Waiting | null; why: string | null; isOpen: boolean;
  }
  /** What was still to be done when the page was left; `isAsked` is the number of the question about a file, or whether there was to be one. */
  interface Waiting {
    gestures: Gesture[]; refused: (Refused & { isAsked: number | boolean })[]; next?: number;
    pictures: Pick<Picture, "file" | "label" | "of" | "window" | "colour" | "opacity" | "isShown">[];
  }
  /** The board that a tool put into the page (web/building/contents.js). */
  interface Contents {
    title?: string; id?: string; files: File[]; lines: Sent[]; pictures: { name: string; layer: string; window: string; bytes: Uint8Array }[];
    window?: string | null;
  }

  // ---- Messages: what the machine sends ----

  /** To the page (main.js of the page). */
  interface ToPage {
    anew: {};
    "board closed": {};
    copy: { text: string };
    "copy link": {};
    download: { number: number; files: File[]; zip: string | null; form?: string; pitch?: number };
    finished: { gesture: number | string; result: Result | null };
    fit: { box: Board.Box; room?: number };
    "give board": { number: number; window: Area; form: string };
    "give print": { number: number } & Pictures;
    "give svg": { number: number } & Pictures;
    "give view": { number: number };
    go: { place: Board.Point };
    look: { look: string };
    named: { token: string; opening: number };
    opened: { opening: number; result: { opened: string[]; refused: Opening["refused"]; others: string[] } };
    "put picture": { name: string; file: string; window: string };
    script: { number: number };
    seek: { boxes: Board.Box[]; whole: Board.Box };
    "show picked": {};
    start: {};
    try: { refused: number };
    view: { view: Seen };
  }
  type Given = "give view" | "give svg" | "give print" | "give board";
  type HandedOut = { [K in Given]: { kind: K } & Omit<ToPage[K], "number"> }[Given];
  /** The station's pictures of layers by their names, as PBM files. */
  interface Pictures { window: Area; pictures: Uint8Array[]; layers: string[] }
  /** To the journal: records behind the first `from`, or all anew. */
  interface ToKept {
    kind: "keep" | "anew"; number: number; from?: number; records: Told[][]; files: [id: string, bytes: Uint8Array][]; waiting: Waiting | null;
  }
  type Message = { [K in keyof ToPage]: { to: "page"; kind: K } & ToPage[K] }[keyof ToPage] | { to: "worker" } & ToWorker | { to: "kept" } & ToKept;
}

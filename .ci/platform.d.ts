// What tsc's own libraries lack of the platforms. Debian has no types of the modules of node: those stand here that are used, as
// node 18 has them, and the others come as they are.

declare module "node:*";

interface Buffer extends Uint8Array {
  toString(encoding?: string, start?: number, end?: number): string;
  equals(other: Uint8Array): boolean;
  indexOf(value: number | string | Uint8Array, from?: number): number;
  readUInt8(at: number): number;
  readUInt16LE(at: number): number;
  readUInt32BE(at: number): number;
  writeUInt32BE(value: number, at: number): number;
  slice(start?: number, end?: number): Buffer;
  subarray(start?: number, end?: number): Buffer;
}
declare namespace Node {
  interface Buffers {
    alloc(size: number, fill?: number): Buffer;
    byteLength(text: string): number;
    compare(one: Uint8Array, other: Uint8Array): -1 | 0 | 1;
    concat(parts: readonly Uint8Array[]): Buffer;
    from(text: string, encoding?: string): Buffer;
    from(bytes: ArrayLike<number> | ArrayBuffer): Buffer;
  }
  /** A stream that is written. */
  interface Output {
    isTTY?: boolean;
    write(content: string | Uint8Array): boolean;
    on(event: "error", listener: (fault: Error) => void): unknown;
  }
  interface Process {
    argv: string[];
    env: Record<string, string | undefined>;
    execPath: string;
    exitCode: number | undefined;
    pid: number;
    stdout: Output;
    stderr: Output;
    cpuUsage(before?: { user: number; system: number }): { user: number; system: number };
    cwd(): string;
    exit(status?: number): never;
    /** (Windows has none.) */
    getuid?(): number;
    kill(process: number, signal?: string | number): true;
    resourceUsage(): { maxRSS: number };
  }
  type Path = string | Uint8Array | URL;
  /** What is known of a file. */
  interface Stats {
    dev: number;
    ino: number;
    uid: number;
    gid: number;
    mode: number;
    size: number;
    mtimeMs: number;
    isDirectory(): boolean;
    isFile(): boolean;
    isSymbolicLink(): boolean;
  }
  /** What stands in a folder. */
  interface Entry {
    name: string;
    isDirectory(): boolean;
    isFile(): boolean;
    isSymbolicLink(): boolean;
  }
  /** How a run of another program ended, whose output is text. */
  interface Ended {
    pid: number;
    status: number | null;
    signal: string | null;
    /** where it did not begin, or was stopped */
    error?: Error;
    stdout: string;
    stderr: string;
  }
  interface EndedInBytes extends Omit<Ended, "stdout" | "stderr"> {
    stdout: Buffer;
    stderr: Buffer;
  }
  interface RunOptions {
    cwd?: string;
    env?: Record<string, string | undefined>;
    input?: string | Uint8Array;
    maxBuffer?: number;
    timeout?: number;
    stdio?: string | (string | number)[];
    detached?: boolean;
  }
  /** Another program that runs. */
  interface Running {
    pid: number | undefined;
    stdin: Output & { end(content?: string | Uint8Array): void };
    stdout: Input;
    stderr: Input;
    exitCode: number | null;
    signalCode: string | null;
    kill(signal?: string | number): boolean;
    on(event: "exit" | "close", listener: (status: number | null, signal: string | null) => void): unknown;
    on(event: "error", listener: (fault: Error) => void): unknown;
    once(event: "exit" | "close", listener: (status: number | null, signal: string | null) => void): unknown;
  }
  /** A stream that is read. */
  interface Input {
    on(event: "data", listener: (content: Buffer) => void): unknown;
    once(event: "data", listener: (content: Buffer) => void): unknown;
    on(event: "end", listener: () => void): unknown;
    destroy(): unknown;
  }
  interface Hash {
    update(content: string | Uint8Array): Hash;
    digest(encoding: "hex" | "base64" | "latin1"): string;
    digest(): Buffer;
  }
}
declare const Buffer: Node.Buffers;
declare const process: Node.Process;

declare module "node:child_process" {
  export function spawn(program: string, words?: string[], options?: Node.RunOptions): Node.Running;
  export function spawnSync(program: string, words: string[], options: Node.RunOptions & { encoding: string }): Node.Ended;
  export function spawnSync(program: string, words?: string[], options?: Node.RunOptions): Node.EndedInBytes;
}
declare module "node:crypto" {
  export function createHash(kind: string): Node.Hash;
}
declare module "node:fs" {
  export const constants: { W_OK: number };
  export function accessSync(path: Node.Path, mode?: number): void;
  export function closeSync(file: number): void;
  export function copyFileSync(from: Node.Path, to: Node.Path): void;
  export function chmodSync(path: Node.Path, mode: number): void;
  export function cpSync(from: string | URL, to: string | URL,
    options?: { recursive?: boolean; preserveTimestamps?: boolean; filter?: (from: string, to: string) => boolean }): void;
  export function existsSync(path: Node.Path): boolean;
  export function fchmodSync(file: number, mode: number): void;
  export function fchownSync(file: number, user: number, group: number): void;
  export function fstatSync(file: number): Node.Stats;
  export function fsyncSync(file: number): void;
  export function linkSync(from: Node.Path, to: Node.Path): void;
  export function lstatSync(path: Node.Path): Node.Stats;
  export function lstatSync(path: Node.Path, options: { throwIfNoEntry: false }): Node.Stats | undefined;
  export function mkdirSync(path: Node.Path, options?: { recursive?: boolean; mode?: number }): string | undefined;
  export function mkdtempSync(prefix: string): string;
  export function openSync(path: Node.Path, flags: string, mode?: number): number;
  export function readFileSync(path: Node.Path | number): Buffer;
  export function readFileSync(path: Node.Path | number, encoding: string): string;
  export function readSync(file: number, into: Uint8Array, at: number, length: number, position: number | null): number;
  export function readdirSync(path: Node.Path): string[];
  export function readdirSync(path: Node.Path, options: { encoding: "buffer" }): Buffer[];
  export function readdirSync(path: Node.Path, options: { withFileTypes: true }): Node.Entry[];
  export function realpathSync(path: Node.Path): string;
  export function renameSync(from: Node.Path, to: Node.Path): void;
  export function rmSync(path: Node.Path, options?: { force?: boolean; recursive?: boolean }): void;
  export function statSync(path: Node.Path): Node.Stats;
  export function statSync(path: Node.Path, options: { throwIfNoEntry: false }): Node.Stats | undefined;
  export function statSync(path: Node.Path, options: { bigint: true; throwIfNoEntry: false }): { ino: bigint; mtimeNs: bigint } | undefined;
  export function symlinkSync(to: Node.Path, path: Node.Path): void;
  export function unlinkSync(path: Node.Path): void;
  export function writeFileSync(path: Node.Path | number, content: string | Uint8Array, options?: string | { flag?: string; mode?: number }): void;
}
declare module "node:os" {
  export function tmpdir(): string;
}
declare module "node:path" {
  export function basename(path: string, ending?: string): string;
  export function dirname(path: string): string;
  export function join(...parts: string[]): string;
  export function normalize(path: string): string;
  export function relative(from: string, to: string): string;
  export function resolve(...parts: string[]): string;
}
declare module "node:url" {
  export function fileURLToPath(url: string | URL): string;
  export function pathToFileURL(path: string): URL;
}
declare module "node:util" {
  /** The names of the system's faults and what they say, by their numbers. */
  export function getSystemErrorMap(): Map<number, [name: string, text: string]>;
  interface Form { type: "boolean" | "string"; short?: string }
  type Token = { kind: "positional"; index: number; value: string } | { kind: "option-terminator"; index: number }
    | { kind: "option"; index: number; name: string; rawName: string; value: string | undefined; inlineValue: boolean | undefined };
  export function parseArgs(call: { args: string[]; options: Record<string, Form>; strict: boolean; allowPositionals: boolean; tokens: true }):
    { tokens: Token[] };
}
declare module "node:zlib" {
  export function deflateSync(content: string | Uint8Array, options?: { level?: number }): Buffer;
  export function gunzipSync(content: Uint8Array): Buffer;
  export function gzipSync(content: string | Uint8Array, options?: { level?: number }): Buffer;
  export function inflateSync(content: Uint8Array): Buffer;
}

declare const CompressionStream: new (format: "gzip" | "deflate" | "deflate-raw") => ReadableWritablePair<Uint8Array, BufferSource>;
declare const DecompressionStream: typeof CompressionStream;

declare class OffscreenCanvas {
  constructor(width: number, height: number);
  width: number;
  height: number;
  getContext(kind: "2d", settings?: CanvasRenderingContext2DSettings): OffscreenCanvasRenderingContext2D;
  transferToImageBitmap(): ImageBitmap;
  convertToBlob(options?: { type?: string }): Promise<Blob>;
}
interface OffscreenCanvasRenderingContext2D extends Omit<CanvasRenderingContext2D, "canvas"> { readonly canvas: OffscreenCanvas }
interface CanvasRenderingContext2DSettings { willReadFrequently?: boolean }
interface CanvasDrawImage {
  drawImage(image: OffscreenCanvas, x: number, y: number, width?: number, height?: number): void;
}
interface Path2D {
  roundRect(x: number, y: number, width: number, height: number, radius: number): void;
}
interface FileSystemDirectoryHandle {
  values(): AsyncIterable<FileSystemDirectoryHandle | FileSystemFileHandle>;
}
interface DataTransferItem {
  getAsFileSystemHandle?(): Promise<FileSystemHandle | null>;
}
type AbortSignals = typeof AbortSignal & { timeout(ms: number): AbortSignal };

// In a worker `self` posts to the page.
interface Window {
  postMessage(message: unknown, over: Transferable[]): void;
}

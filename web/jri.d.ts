/** libjri in a web page: the calls of jri.h over bytes, streams and files. */

/** What a file's bytes can come from. A Response must have a status of success. */
export type Source =
  | ArrayBuffer
  | ArrayBufferView
  | Blob
  | Response
  | ReadableStream<Uint8Array>
  | Iterable<Source>
  | AsyncIterable<Source>;

/** The bytes of a pixel. "plain" has one of grey, or one each of red, green and blue; the others spread grey to three. */
export type Layout = 'plain' | 'rgb' | 'bgr' | 'rgbx' | 'bgrx';

/** What ended the scan. */
export type Ended = 'EOI' | 'marker' | 'out of step' | 'extra restart' | 'end of file';

/** The number of the interface, JRI_VERSION of jri.h. */
export const INTERFACE: number;
/** The maximum number of copies that are mended together. */
export const MAX_COPIES: number;
/** The mark of a restart interval that has not been read. */
export const BLANK: 0;
/** The mark of a restart interval that has a decoding. */
export const SOUND: 1;
/** The mark of a restart interval that has no decoding. */
export const DAMAGED: 2;

/** What a file's header says, as in jri.h. */
export interface Header {
  width: number;
  height: number;
  kind: 'grey' | 'rgb' | 'ycbcr';
  components: 1 | 3;
  /** The number of restart intervals. */
  intervals: number;
  /** The size of the plain pixels in bytes. */
  pixels: number;
  /** The offset after the scan header. */
  scanAt: number;
  /** The number of MCUs of a restart interval; 0 if there are no restart markers. */
  restart: number;
  mcuWidth: number;
  mcuHeight: number;
  mcusAcross: number;
  mcusDown: number;
  mcus: number;
  /** The sampling factors of each component; 0 if there is no such component. */
  horizontal: [number, number, number];
  vertical: [number, number, number];
}

/** The report of a decoding or a check. */
export interface Report {
  intervals: number;
  sound: number;
  damaged: number;
  /** 0: every interval is decoded. */
  blank: number;
  ended: Ended;
  /** The code of the marker that ended the scan, or the number of the restart marker. */
  found: number;
  /** The number of the restart marker that was due. */
  due: number;
  /** The offset of the marker that ended the scan; 0 with EOI and the end of the file. */
  at: number;
  /** What ended the scan, as jri prints it. */
  text: string;
}

/** A restart interval that has no decoding, as in jri.h. */
export interface Damage {
  interval: number;
  firstMcu: number;
  mcus: number;
  /** The number of its first MCUs that can be decoded. */
  decodable: number;
  firstLine: number;
  lastLine: number;
  /** Its bytes; both are 0 if it has none. */
  start: number;
  end: number;
}

/** A position between two rows of MCUs: plain numbers that hold no memory. */
export interface Position {
  at: number;
  bit: number;
  row: number;
  interval: number;
  mcu: number;
  predictions: [number, number, number];
  state: number;
}

/** Where a list of damage continues: an interval, and the offset of its first byte. */
export interface DamagePosition {
  next: number;
  nextAt: number;
}

export interface Decoded {
  header: Header;
  layout: Layout;
  pixels: Uint8Array;
  /** A mark for each restart interval. */
  marks: Uint8Array;
  report: Report;
}

export interface Checked {
  header: Header;
  marks: Uint8Array;
  report: Report;
  /** The offset after the EOI that ended the scan, otherwise the size of the file. */
  imageEnd: number;
  size: number;
}

export interface Lines {
  firstLine: number;
  lines: number;
  pixels: Uint8Array;
}

/** A marker that was not the restart marker that was due. */
export interface Break {
  at: number;
  code: number;
  due: number;
  /** The number of restart markers missing before it; 0 if it is passed over. */
  skipped: number;
}

export interface Resynchronised {
  bytes: Uint8Array;
  breaks: Break[];
  ended: Ended;
  found: number;
  at: number;
}

/** The copy from which a restart interval is taken. */
export interface Choice {
  /** The number of the copy, from 0. */
  copy: number;
  mark: 1 | 2;
  decodable: number;
  /** 1 if two copies in which it is sound have different data. */
  differs: 0 | 1;
}

export interface Mended {
  /** The mended file; the first copy unchanged if all of it is sound. */
  bytes: Uint8Array;
  intervals: number;
  /** The number of intervals that are damaged in all copies. */
  damaged: number;
  choices: Choice[];
  breaks: (Break & { copy: number })[];
  /** False if the first copy is sound. */
  isMended: boolean;
}

export interface OpenOptions {
  /** The compiled module; by default jri.wasm next to jri.js. */
  module?: WebAssembly.Module | Promise<WebAssembly.Module>;
  /** The maximum size of the heap in bytes, above which OutOfMemoryError is thrown. */
  memoryLimit?: number;
}

export interface ReadOptions extends OpenOptions {
  signal?: AbortSignal;
}

export interface ResyncOptions {
  /** Whether the file is resynchronised first. */
  resync?: boolean;
}

export interface DecodeOptions extends ResyncOptions {
  layout?: Layout;
}

export interface WatchOptions extends ReadOptions {
  layout?: Layout;
  /** The maximum number of rows of MCUs of one event. */
  rows?: number;
  /** Whether intervals are marked before the end. */
  marks?: boolean;
}

export type MendOptions = ReadOptions & ResyncOptions;

export interface Marks {
  /** The number of the first intervals, which have ended: only these are marked. */
  known: number;
  marks: Uint8Array;
  damages: Damage[];
  size: number;
}

/** What of a file is final while it arrives; `size` is the number of bytes so far. */
export type WatchEvent =
  | { type: 'header'; header: Header; size: number }
  | ({ type: 'lines'; size: number } & Lines)
  | ({ type: 'marks' } & Marks)
  | { type: 'progress'; size: number }
  | ({ type: 'end' } & Marks & Checked);

/** An error of libjri or of the module that has it. */
export class JriError extends Error {}

/** A file that jri does not decode. The message is jri's text. */
export class RefusedError extends JriError {
  /** 1 to 18, as in jri.h. */
  readonly number: number;
  /** An offset or a marker's code. */
  readonly detail: number;
  /** The number of the copy that is refused, from 0, if copies are mended. */
  readonly copy?: number;
}

/** A file that is refused for what valid JPEG files may have. It is not checked. */
export class UnsupportedError extends RefusedError {}

/** The memory of an instance has reached its limit, or the browser's. */
export class OutOfMemoryError extends JriError {}

/** Lines that the image does not have. */
export class NoLinesError extends JriError {}

/** Copies that cannot be mended together. */
export class CopiesError extends JriError {
  /** The number of the copy that does not fit, from 0, or null. */
  readonly copy: number | null;
}

/** A call trapped, or was made after the trap or after `close`. */
export class EndedError extends JriError {}

/** A JPEG file in an instance of its own. Every method may throw EndedError and OutOfMemoryError. */
export class Jpeg {
  static open(options?: OpenOptions): Promise<Jpeg>;
  static from(source: Source, options?: ReadOptions): Promise<Jpeg>;

  /** The number of bytes so far. */
  readonly size: number;
  /** The number of bytes of the heap that are in use. */
  readonly memory: number;
  /** The position of the next row of MCUs. It may be set to an earlier one; {} is the top. */
  get position(): Position;
  set position(position: Partial<Position>);

  append(chunk: Uint8Array): void;
  /** Says that no further bytes follow. */
  finish(): this;
  close(): void;
  /** Frees the bytes before the position, once the header is complete. After it only `rows` and `skipRows` read the file. */
  forget(): void;
  bytes(): Uint8Array;

  /** Returns null if more bytes are needed. Throws RefusedError. */
  readHeader(): Header | null;
  decode(options?: DecodeOptions): Decoded;
  /** Throws NoLinesError. */
  decodeLines(first: number, count: number, options?: ResyncOptions): Lines & { report: Report };
  check(options?: ResyncOptions): Checked;
  /** Yields the damaged intervals, starting at one, that no further byte changes. Returns where to continue. */
  damages(from?: Partial<DamagePosition>): Generator<Damage, DamagePosition>;
  /** Yields the next lines that no further byte changes. */
  rows(options?: { rows?: number; layout?: Layout }): Generator<Lines>;
  /** Moves the position past at most `rows` rows of MCUs. Returns their number. */
  skipRows(rows: number): number;
  resynchronise(): Resynchronised;

  buildText(): string;
  version(): number;
}

/** Compiles the module, once for each address. */
export function load(url?: string | URL): Promise<WebAssembly.Module>;
/** Yields the bytes of a source in parts. */
export function chunksOf(source: Source): AsyncGenerator<Uint8Array>;

export function readHeader(source: Source, options?: ReadOptions): Promise<Header>;
export function decode(source: Source, options?: ReadOptions & DecodeOptions): Promise<Decoded>;
export function check(source: Source, options?: ReadOptions & ResyncOptions): Promise<Checked & { damages: Damage[] }>;
export function resynchronise(source: Source, options?: ReadOptions): Promise<Resynchronised>;
/** Mends a file from 1 to 64 copies, each of which is resynchronised first unless `resync` is false. */
export function mend(sources: Source[], options?: MendOptions): Promise<Mended>;
/** Yields what of a file is final while it arrives. Leaving the loop cancels the source. */
export function watch(source: Source, options?: WatchOptions): AsyncGenerator<WatchEvent>;

/** Returns what a valid file with this refusal has that jri does not decode; null if no valid file has this refusal. */
export function unsupportedText(number: number, detail: number): string | null;

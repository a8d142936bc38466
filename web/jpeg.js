// A JPEG file in an instance of the module: the calls of jri.h that read one file.
import { JriError, NoLinesError, OutOfMemoryError, RefusedError, UnsupportedError } from './errors.js';
import { Instance, NOTHING } from './instance.js';
import { load } from './module.js';
import { unsupportedText } from './refusals.js';
import { chunksOf } from './sources.js';
import { sizeOf } from './structs.js';

/** The mark of a restart interval that has not been read, that has a decoding, and that has none. */
export const BLANK = 0;
export const SOUND = 1;
export const DAMAGED = 2;

const STATUS = { ok: 0, noMemory: 1, refused: 2, damaged: 3, noLines: 5, needMore: 7, tooLong: 8 };
const COMPLETE = 0;
const PARTIAL = 1;
const TOO_LONG = 18;
const KINDS = ['grey', 'rgb', 'ycbcr'];
const ENDS = [null, 'EOI', 'marker', 'out of step', 'extra restart', 'end of file'];
const LAYOUTS = { plain: [0, 0], rgb: [1, 3], bgr: [2, 3], rgbx: [3, 4], bgrx: [4, 4] };
const TOP = { at: 0, bit: 0, row: 0, interval: 0, mcu: 0, predictions: [0, 0, 0], state: 0 };
/** The number of entries of a list that one call fills, and the size of a text. */
const ENTRIES = 64;
const TEXT_SIZE = 96;

/** A JPEG file in an instance of its own. */
export class Jpeg {
  #instance;
  /** The bytes so far, or, once some are forgotten, a window of them that begins at an offset of the file, and the header. */
  #buffer = NOTHING;
  #size = 0;
  #windowAt = 0;
  #header = NOTHING;
  #more = PARTIAL;
  #position = TOP;

  constructor(instance) {
    this.#instance = instance;
  }

  /** Makes an instance for a file, whose bytes `append` adds. */
  static async open({ module = load(), memoryLimit } = {}) {
    return new Jpeg(await Instance.of(await module, memoryLimit));
  }

  /** Makes an instance for a file, and reads all of a source into it. */
  static async from(source, { signal, ...options } = {}) {
    const file = await Jpeg.open(options);
    try {
      for await (const chunk of chunksOf(source)) {
        signal?.throwIfAborted();
        file.append(chunk);
      }
      return file.finish();
    } catch (error) {
      file.close();
      throw error;
    }
  }

  /** The number of bytes so far. */
  get size() {
    return this.#windowAt + this.#size;
  }

  /** The bytes of the heap that are in use. */
  get memory() {
    return this.#instance.used;
  }

  /** The position of the next row of MCUs, plain numbers that can be kept and set again. */
  get position() {
    return structuredClone(this.#position);
  }

  set position(position) {
    this.#position = { ...TOP, ...structuredClone(position) };
  }

  /** Frees the instance. Every call after it throws an EndedError. */
  close() {
    this.#instance.close();
  }

  /** Appends bytes of the file. */
  append(chunk) {
    if (this.#more === COMPLETE) throw new TypeError('the file is complete');
    const size = this.#size + chunk.byteLength;
    if (size > this.#buffer.size) this.#grow(size);
    this.#instance.bytes(this.#buffer.first(size)).set(chunk, this.#size);
    this.#size = size;
  }

  /** Says that no further bytes follow. */
  finish() {
    this.#more = COMPLETE;
    return this;
  }

  /** Frees the bytes before the position, once the header is complete. After it only `rows` and `skipRows` read the file. */
  forget() {
    const header = this.#windowAt === 0 ? this.readHeader() : null;
    if (header !== null) {
      const bytes = this.#instance.bytes(this.#file().first(header.scanAt)).slice();
      this.#header = this.#instance.allocate(header.scanAt);
      this.#instance.bytes(this.#header).set(bytes);
    }
    const done = Math.min(Math.max(this.#position.at, this.#header.size) - this.#windowAt, this.#size);
    if (this.#header === NOTHING || done <= 0) return;
    this.#instance.bytes(this.#buffer).copyWithin(0, done, this.#size);
    this.#size -= done;
    this.#windowAt += done;
  }

  /** Returns a copy of the bytes so far. */
  bytes() {
    return this.#instance.bytes(this.#file()).slice();
  }

  /** Returns the header; null if more bytes are needed. */
  readHeader() {
    const instance = this.#instance;
    const file = this.#windowAt > 0 ? this.#header : this.#file();
    const [status, found] = instance.report('jri_header', (out) => instance.call('jri_read_header', file, this.#more, out));
    if (status === STATUS.needMore) return null;
    this.#expect(status, found, STATUS.ok);
    const { refusal, detail, ...header } = found;
    return { ...header, kind: KINDS[header.kind] };
  }

  /** Decodes the whole file. */
  decode({ layout = 'plain', resync = false } = {}) {
    const header = this.#wholeHeader();
    const [number, pixelBytes] = layoutOf(layout);
    const stride = header.width * (pixelBytes || header.components);
    const shape = number === 0 ? [] : [BigInt(stride), number];
    return this.#into(stride * header.height, (pixels) =>
      this.#into(header.intervals, (marks) => {
        const call = number === 0 ? 'jri_decode' : 'jri_decode_canvas';
        const report = this.#reported(call, Number(resync), pixels, ...shape, marks);
        return { header, layout, pixels: this.#copy(pixels), marks: this.#copy(marks), report };
      }),
    );
  }

  /** Decodes `count` lines starting at line `first`, one or three bytes a pixel. */
  decodeLines(first, count, { resync = false } = {}) {
    const { width, components } = this.#wholeHeader();
    return this.#into(width * components * count, (pixels) => {
      const report = this.#reported('jri_decode_lines', Number(resync), first, count, pixels);
      return { firstLine: first, lines: count, pixels: this.#copy(pixels), report };
    });
  }

  /** Reads every interval of the bytes so far, as of a complete file, and makes no image. */
  check({ resync = false } = {}) {
    const header = this.#wholeHeader();
    return this.#into(header.intervals, (marks) => {
      const report = this.#reported('jri_check', Number(resync), marks);
      return { header, marks: this.#copy(marks), report, imageEnd: this.#imageEnd(header, report), size: this.#size };
    });
  }

  /** Yields the damaged intervals, starting at one, that no further byte changes. Returns where to continue. */
  *damages({ next = 0, nextAt = 0 } = {}) {
    const instance = this.#instance;
    const entries = instance.allocate(ENTRIES * sizeOf('jri_damage'));
    const space = [instance.address(entries), BigInt(ENTRIES)];
    try {
      for (;;) {
        const [status, list] = instance.report('jri_damage_list', (out) =>
          instance.call('jri_list_damage', this.#file(), this.#more, next, BigInt(nextAt), ...space, out),
        );
        if (status === STATUS.needMore) return { next, nextAt };
        this.#expect(status, list, STATUS.ok, STATUS.damaged);
        ({ next, nextAt } = list);
        for (let k = 0; k < list.count; k += 1) yield instance.read('jri_damage', entries, k);
        if (status === STATUS.ok) return { next, nextAt };
      }
    } finally {
      instance.free(entries);
    }
  }

  /** Yields the next lines that no further byte changes, and moves the position past them. */
  *rows({ rows = 8, layout = 'plain' } = {}) {
    const header = this.readHeader();
    if (header === null) return;
    const [number, pixelBytes] = layoutOf(layout);
    const instance = this.#instance;
    const width = header.width * header.components;
    const pixels = instance.allocate(width * header.mcuHeight * rows);
    const canvas = number === 0 ? NOTHING : instance.allocate(header.width * pixelBytes * header.mcuHeight * rows);
    try {
      for (let found = this.#nextRows(rows, pixels); found; found = this.#nextRows(rows, pixels)) {
        const { lines, firstLine } = found;
        const plain = pixels.first(lines * width);
        yield { firstLine, lines, pixels: this.#copy(number === 0 ? plain : this.#layOut(plain, header, canvas, lines, layout)) };
      }
    } finally {
      instance.free(canvas);
      instance.free(pixels);
    }
  }

  /** Moves the position past at most `rows` rows of MCUs, and returns their number. */
  skipRows(rows) {
    return this.#moved('jri_skip', rows)?.rows ?? 0;
  }

  /** Writes the file with its restart markers in step. */
  resynchronise() {
    const header = this.#wholeHeader();
    const size = this.#size + 2 * header.intervals;
    return this.#into(size, (out) => {
      const first = this.#resynchronise(out, 0);
      const { breaks } = first.breaks > 0 ? this.#resynchronise(out, first.breaks) : { breaks: [] };
      const { ended, found, at, size: length } = first;
      return { bytes: this.#copy(out.first(length)), breaks, ended: ENDS[ended], found, at };
    });
  }

  /** Returns the version, commit and toolchain of the build. */
  buildText() {
    return this.#text((text) => this.#instance.call('jri_build_text', text));
  }

  /** Returns the number of the module's interface. */
  version() {
    return this.#instance.call('jri_version');
  }

  #file() {
    if (this.#windowAt > 0) throw new TypeError('bytes of the file are forgotten');
    return this.#buffer.first(this.#size);
  }

  #grow(size) {
    const instance = this.#instance;
    const buffer = instance.allocate(Math.max(65536, size, 2 * this.#buffer.size));
    instance.bytes(buffer).set(instance.bytes(this.#buffer.first(this.#size)));
    instance.free(this.#buffer);
    this.#buffer = buffer;
  }

  /** Returns the header of the bytes so far as of a complete file. */
  #wholeHeader() {
    const header = this.readHeader();
    if (header === null) throw this.#refusal(2, 0);
    return header;
  }

  /** Allocates a buffer for one call. */
  #into(size, use) {
    return this.#instance.borrow(size, use);
  }

  #copy(span) {
    return this.#instance.bytes(span).slice();
  }

  /** Makes a call whose last argument is a report, and returns the report. */
  #reported(name, ...parts) {
    const instance = this.#instance;
    return instance.borrow(sizeOf('jri_report'), (span) => {
      const status = instance.call(name, this.#file(), ...parts, instance.address(span));
      const found = instance.read('jri_report', span);
      this.#expect(status, found, STATUS.ok, STATUS.damaged);
      const text = this.#text((out) => instance.call('jri_end_text', instance.address(span), out));
      const { refusal, detail, ended, ...report } = found;
      return { ...report, ended: ENDS[ended], text };
    });
  }

  #moved(name, rows, ...pixels) {
    const instance = this.#instance;
    const isWhole = this.#windowAt === 0;
    const bytes = isWhole ? [this.#file()] : [this.#header, this.#buffer.first(this.#size), BigInt(this.#windowAt)];
    return instance.borrow(sizeOf('jri_position'), (span) => {
      instance.write('jri_position', span, this.#position);
      const [status, found] = instance.report('jri_rows', (out) =>
        instance.call(`${name}_${isWhole ? 'rows' : 'window'}`, ...bytes, this.#more, instance.address(span), rows, ...pixels, out),
      );
      if (status === STATUS.noLines) return null;
      this.#expect(status, found, STATUS.ok);
      this.#position = instance.read('jri_position', span);
      return found.rows > 0 ? found : null;
    });
  }

  #nextRows(rows, pixels) {
    return this.#moved('jri_decode', rows, pixels);
  }

  #layOut(plain, header, canvas, lines, layout) {
    const [number, pixelBytes] = LAYOUTS[layout];
    const out = canvas.first(header.width * pixelBytes * lines);
    const shape = [BigInt(header.width * pixelBytes), number];
    const status = this.#instance.call('jri_lay_out', plain, header.width, header.components, out, ...shape);
    this.#expect(status, {}, STATUS.ok);
    return out;
  }

  /** Resynchronises the file into a buffer, and lists `count` breaks. */
  #resynchronise(out, count) {
    const instance = this.#instance;
    return this.#into(count * sizeOf('jri_break'), (entries) => {
      const [status, found] = instance.report('jri_resynced', (report) =>
        instance.call('jri_resynchronise', this.#file(), out, instance.address(entries), BigInt(count), report),
      );
      this.#expect(status, found, STATUS.ok);
      if (count === 0) return found;
      return { ...found, breaks: Array.from({ length: count }, (_, k) => instance.read('jri_break', entries, k)) };
    });
  }

  /** The offset after the EOI that ended a scan: in the data of a scan FF D9 is a marker wherever it is. */
  #imageEnd({ scanAt }, { ended }) {
    if (ended !== 'EOI') return this.#size;
    const bytes = this.#instance.bytes(this.#file());
    for (let at = bytes.indexOf(0xff, scanAt); at >= 0; at = bytes.indexOf(0xff, at + 1)) {
      if (bytes[at + 1] === 0xd9) return at + 2;
    }
    return this.#size;
  }

  #text(call) {
    return this.#into(TEXT_SIZE, (text) => new TextDecoder().decode(this.#copy(text.first(Number(call(text))))));
  }

  #refusal(number, detail) {
    const unsupported = unsupportedText(number, detail);
    if (unsupported) return new UnsupportedError(number, detail, unsupported);
    const text = this.#text((out) => this.#instance.call('jri_refusal_text', number, BigInt(detail), out));
    return new RefusedError(number, detail, text);
  }

  /** Throws the error of a status that is not one of these. */
  #expect(status, { refusal = 0, detail = 0 }, ...expected) {
    if (expected.includes(status)) return;
    if (status === STATUS.noMemory) throw new OutOfMemoryError();
    if (status === STATUS.refused) throw this.#refusal(refusal, detail);
    if (status === STATUS.tooLong) throw this.#refusal(TOO_LONG, 0);
    if (status === STATUS.noLines) throw new NoLinesError();
    throw new JriError(`status ${status}`);
  }
}

function layoutOf(layout) {
  if (!Object.hasOwn(LAYOUTS, layout)) throw new TypeError(`a layout is one of ${Object.keys(LAYOUTS).join(', ')}`);
  return LAYOUTS[layout];
}

// An instance of the module: its memory, its heap, and calls whose addresses are checked before they are made.
import { EndedError, OutOfMemoryError } from './errors.js';
import { readStruct, sizeOf, writeStruct } from './structs.js';

/** A range of an instance's memory. A call gets its address and its size. */
export class Span {
  constructor(at, size) {
    this.at = at;
    this.size = size;
    Object.freeze(this);
  }

  /** Returns the first `size` bytes. */
  first(size) {
    if (size > this.size) throw new RangeError(`${size} bytes of ${this.size}`);
    return new Span(this.at, size);
  }
}

/** A buffer of no bytes. */
export const NOTHING = new Span(0, 0);

/** A range that a call gets by its address alone: a struct, or entries whose number is passed by itself. */
class Address {
  constructor(span) {
    this.span = span;
  }
}

export class Instance {
  #exports;
  #ended = null;

  constructor(exports) {
    this.#exports = exports;
  }

  /**
   * Makes an instance with memory of its own, at most `memoryLimit` bytes of heap.
   * @param {WebAssembly.Module} module
   * @param {number} [memoryLimit]
   */
  static async of(module, memoryLimit) {
    try {
      const { exports } = await WebAssembly.instantiate(module, {});
      if (memoryLimit !== undefined) exports.heap_set_limit(BigInt(memoryLimit));
      return new Instance(exports);
    } catch (error) {
      if (error instanceof RangeError) throw new OutOfMemoryError({ cause: error });
      throw error;
    }
  }

  /** The number of bytes of the heap that are in use. */
  get used() {
    return Number(this.#enter('heap_used', []));
  }

  /** Ends the instance: its memory is freed once nothing refers to its bytes. */
  close() {
    this.#ended ??= new EndedError('the file is closed');
    this.#exports = null;
  }

  /** Returns `size` bytes of the heap. */
  allocate(size) {
    if (!Number.isSafeInteger(size) || size < 0) throw new RangeError(`not a size: ${size}`);
    const at = Number(BigInt.asUintN(64, this.#enter('heap_take', [BigInt(size)])));
    if (at === 0) throw new OutOfMemoryError();
    return new Span(at, size);
  }

  /** Frees what `allocate` returned; nothing if the instance has ended. */
  free(span) {
    if (this.#ended === null && span.at !== 0) this.#enter('heap_free', [BigInt(span.at)]);
  }

  /** Returns what `use` returns of `size` bytes of the heap, which are 0 at first and freed afterwards. */
  borrow(size, use) {
    const span = this.allocate(size);
    try {
      this.bytes(span).fill(0);
      return use(span);
    } finally {
      this.free(span);
    }
  }

  /** Calls `use` with a zeroed struct, and returns what it returns and the struct. */
  report(name, use) {
    return this.borrow(sizeOf(name), (span) => {
      const value = use(new Address(span));
      return [value, this.read(name, span)];
    });
  }

  /** Returns the bytes of a range. They are valid until the next call. */
  bytes(span) {
    this.#check(span);
    return new Uint8Array(this.#exports.memory.buffer, span.at, span.size);
  }

  /** Returns the struct number `index` of a range. */
  read(name, span, index = 0) {
    return readStruct(this.#view(span), name, index * sizeOf(name));
  }

  /** Writes a struct at the start of a range. */
  write(name, span, values) {
    writeStruct(this.#view(span), name, 0, values);
  }

  /** Returns a range that is passed by its address alone. */
  address(span) {
    return new Address(span);
  }

  /** Makes a call of jri.h: a range is passed as address and size, a number as 32 bits, a BigInt as 64 bits. */
  call(name, ...parts) {
    return this.#enter(
      name,
      parts.flatMap((part) => this.#words(part)),
    );
  }

  #words(part) {
    if (part instanceof Address) {
      this.#check(part.span);
      return [BigInt(part.span.at)];
    }
    if (part instanceof Span) {
      this.#check(part);
      return [BigInt(part.at), BigInt(part.size)];
    }
    return [part];
  }

  /** Throws unless the range lies in the memory: the module cuts addresses to 32 bits. */
  #check({ at, size }) {
    if (this.#ended !== null) throw this.#ended;
    const end = this.#exports.memory.buffer.byteLength;
    if (!Number.isSafeInteger(at) || !Number.isSafeInteger(size) || at < 0 || size < 0 || at + size > end) {
      throw new RangeError(`bytes ${at} to ${at + size} are not in the memory`);
    }
  }

  #view(span) {
    this.#check(span);
    return new DataView(this.#exports.memory.buffer, span.at, span.size);
  }

  /** Whatever an export throws ends the instance: its memory may be in the middle of a change. */
  #enter(name, words) {
    if (this.#ended !== null) throw this.#ended;
    try {
      return this.#exports[name](...words);
    } catch (error) {
      if (error instanceof TypeError) throw error;
      this.#ended = new EndedError(`${name} trapped: ${error.message}`, { cause: error });
      this.#exports = null;
      throw this.#ended;
    }
  }
}

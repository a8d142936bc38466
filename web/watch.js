// A file that is decoded while it arrives.
import { DAMAGED, Jpeg, SOUND } from './jpeg.js';
import { chunksOf } from './sources.js';

/** The header is read again when an eighth more of it has come: then all readings together read it at most nine times. */
const HEADER_SHARE = 1 / 8;
/** The marks are reported again when this share more intervals have ended: then all reports together have at most 33 times as many. */
const MARKS_SHARE = 1 / 32;

/** What is known of a file that arrives, and when to look at it again. */
class Arrival {
  #file;
  #options;
  #header = null;
  #due = 0;
  #marks = null;
  #damages = [];
  #examined = { next: 0, nextAt: 0 };

  constructor(file, options) {
    this.#file = file;
    this.#options = options;
  }

  /** Yields what the bytes so far make final. */
  *more() {
    if (this.#file.size < this.#due) return;
    yield* this.#read();
    this.#due = this.#file.size + HEADER_SHARE * (this.#header?.scanAt ?? this.#file.size);
    if (this.#header === null) return;
    yield* this.#lines();
    if (this.#options.marks && this.#file.position.interval > this.#examined.next * (1 + MARKS_SHARE)) yield this.#mark();
  }

  /** Yields the rest of a file that is complete, and the report. */
  *rest() {
    this.#file.finish();
    yield* this.#read();
    yield* this.#lines();
    const { report, imageEnd } = this.#file.check();
    yield { ...this.#mark(), type: 'end', header: this.#header, report, imageEnd };
  }

  *#read() {
    if (this.#header !== null) return;
    this.#header = this.#file.readHeader();
    if (this.#header === null) return;
    this.#marks = new Uint8Array(this.#header.intervals);
    yield { type: 'header', header: this.#header, size: this.#file.size };
  }

  *#lines() {
    const { layout, rows } = this.#options;
    for (const found of this.#file.rows({ layout, rows })) yield { type: 'lines', ...found, size: this.#file.size };
  }

  /** Examines the intervals that have ended since, and returns the marks and the damage of all that have. */
  #mark() {
    const first = this.#examined.next;
    const listed = this.#file.damages(this.#examined);
    const found = [];
    let step = listed.next();
    for (; !step.done; step = listed.next()) found.push(step.value);
    this.#examined = step.value;
    const known = this.#examined.next;
    this.#marks.fill(SOUND, first, known);
    for (const { interval } of found) this.#marks[interval] = DAMAGED;
    this.#damages = [...this.#damages, ...found];
    return { type: 'marks', known, marks: this.#marks.slice(), damages: this.#damages, size: this.#file.size };
  }
}

/**
 * Yields what of a file is final while it arrives: its header, lines of its image, marks of its intervals, and the report at
 * the end. No line is ever taken back. Leaving the loop, or aborting `signal`, cancels the source.
 * @param {import('./jri.js').Source} source
 * @param {import('./jri.js').WatchOptions} [options]
 * @returns {AsyncGenerator<import('./jri.js').WatchEvent>}
 */
export async function* watch(source, { layout = 'plain', rows = 8, marks = true, signal, ...options } = {}) {
  const file = await Jpeg.open(options);
  try {
    const arrival = new Arrival(file, { layout, rows, marks });
    for await (const chunk of chunksOf(source)) {
      signal?.throwIfAborted();
      file.append(chunk);
      yield* arrival.more();
      yield { type: 'progress', size: file.size };
    }
    yield* arrival.rest();
  } finally {
    file.close();
  }
}

// One file from several copies of it that are damaged in different places.
import { CopiesError, JriError, OutOfMemoryError, RefusedError, UnsupportedError } from './errors.js';
import { Instance } from './instance.js';
import { Jpeg } from './jpeg.js';
import { load } from './module.js';
import { unsupportedText } from './refusals.js';
import { sizeOf } from './structs.js';

/** The maximum number of copies that are mended together. */
export const MAX_COPIES = 64;

const STATUS = { ok: 0, noMemory: 1, refused: 2, damaged: 3, tooSmall: 4, tooLong: 8, noCopies: 9, otherHeader: 10 };
const SIZE = 8;
const TEXT_SIZE = 64;

/** Returns a copy as jri_mend is to read it, and the markers that were out of step in it. */
async function prepare(source, copy, { resync, ...options }) {
  const file = await Jpeg.from(source, options);
  try {
    if (!resync) return { bytes: file.bytes(), breaks: [] };
    const { bytes, breaks, ended } = file.resynchronise();
    const isInStep = breaks.length === 0 && ended === 'EOI';
    return { bytes: isInStep ? file.bytes() : bytes, breaks: breaks.map((found) => ({ copy, ...found })) };
  } catch (error) {
    if (error instanceof RefusedError) error.copy = copy;
    throw error;
  } finally {
    file.close();
  }
}

/** The copies one after another in the memory of an instance, and their sizes. */
class Copies {
  constructor(instance, copies) {
    this.instance = instance;
    this.count = copies.length;
    this.files = instance.allocate(copies.reduce((sum, { byteLength }) => sum + byteLength, 0));
    this.sizes = instance.allocate(SIZE * copies.length);
    let at = 0;
    for (const [k, copy] of copies.entries()) {
      instance.bytes(this.files).set(copy, at);
      const sizes = instance.bytes(this.sizes);
      new DataView(sizes.buffer, sizes.byteOffset, sizes.byteLength).setBigUint64(SIZE * k, BigInt(copy.byteLength), true);
      at += copy.byteLength;
    }
  }

  /** Makes the call with buffers for the file and the choices, and returns its status and report. */
  mend(out, choices) {
    const { instance } = this;
    const count = BigInt(choices.size / sizeOf('jri_choice'));
    return instance.report('jri_mended', (report) =>
      instance.call('jri_mend', this.files, instance.address(this.sizes), BigInt(this.count), out, instance.address(choices), count, report),
    );
  }
}

function fail(instance, status, { copy, refusal, detail }) {
  if (status === STATUS.noMemory) throw new OutOfMemoryError();
  if (status === STATUS.otherHeader) throw new CopiesError('its header is not that of the first copy', copy);
  if (status === STATUS.tooLong) throw new CopiesError('the mended file would be too long');
  if (status !== STATUS.refused) throw new JriError(`status ${status}`);
  const unsupported = unsupportedText(refusal, detail);
  const text = instance.borrow(TEXT_SIZE, (span) => {
    const length = Number(instance.call('jri_refusal_text', refusal, BigInt(detail), span));
    return new TextDecoder().decode(instance.bytes(span.first(length)).slice());
  });
  const error = unsupported ? new UnsupportedError(refusal, detail, unsupported) : new RefusedError(refusal, detail, text);
  throw Object.assign(error, { copy });
}

/** Mends copies that are in memory. The first call, without buffers, says what is needed. */
function mendBytes(instance, copies) {
  const all = new Copies(instance, copies);
  const [first, needed] = instance.borrow(0, (out) => all.mend(out, out));
  if (first !== STATUS.tooSmall) fail(instance, first, needed);
  return instance.borrow(needed.size, (out) =>
    instance.borrow(needed.intervals * sizeOf('jri_choice'), (entries) => {
      const [status, { size, intervals, damaged, ...rest }] = all.mend(out, entries);
      if (status !== STATUS.ok && status !== STATUS.damaged) fail(instance, status, rest);
      const choices = Array.from({ length: intervals }, (_, k) => instance.read('jri_choice', entries, k));
      return { bytes: instance.bytes(out.first(size)).slice(), intervals, damaged, choices };
    }),
  );
}

/** Returns whether the first copy is sound as it is: then it is returned unchanged. */
const isFirstSound = ({ choices, breaks }) =>
  choices.every(({ copy, mark }) => copy === 0 && mark === 1) && breaks.every(({ copy }) => copy !== 0);

/**
 * Mends a file from 1 to 64 copies of it. Each copy is first resynchronised, unless `resync` is false.
 * @param {import('./jri.js').Source[]} sources
 * @param {import('./jri.js').MendOptions} [options]
 */
export async function mend(sources, { resync = true, module = load(), memoryLimit, signal } = {}) {
  if (sources.length < 1 || sources.length > MAX_COPIES) {
    throw new CopiesError(`1 to ${MAX_COPIES} copies are needed, not ${sources.length}`);
  }
  const prepared = [];
  for (const [copy, source] of sources.entries()) {
    prepared.push(await prepare(source, copy, { resync, module, memoryLimit, signal }));
  }
  const instance = await Instance.of(await module, memoryLimit);
  try {
    const mended = mendBytes(
      instance,
      prepared.map(({ bytes }) => bytes),
    );
    const result = { ...mended, breaks: prepared.flatMap(({ breaks }) => breaks) };
    return isFirstSound(result) ? { ...result, bytes: prepared[0].bytes, isMended: false } : { ...result, isMended: true };
  } finally {
    instance.close();
  }
}

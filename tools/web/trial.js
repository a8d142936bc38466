// Runs in each browser: what web/jri.js returns of the files that tools/check-web serves. Python compares it with libjri.
import * as jri from '../page/jri.js';
import { Instance, Span } from '../page/instance.js';

const { Jpeg, load, mend, watch } = jri;
const MAX_PIXELS = 4_000_000;
const MAX_DAMAGES = 200;
const ROWS = 3;

const module = await load(new URL('../page/jri.wasm', import.meta.url));

async function digest(bytes) {
  const sum = new Uint8Array(await crypto.subtle.digest('SHA-256', bytes));
  return Array.from(sum.subarray(0, 16), (byte) => byte.toString(16).padStart(2, '0')).join('');
}

const isEqual = (a, b) => a.length === b.length && a.every((value, k) => value === b[k]);

/** An error as tools/web/native.py has it. */
function errorOf(error) {
  const { name, number, detail, copy, message } = error;
  const isRefusal = error instanceof jri.RefusedError;
  if (!(error instanceof jri.JriError)) return { error: String(error) };
  return { error: name, ...(isRefusal && { number, detail, message }), ...(copy !== undefined && { copy }) };
}

async function attempt(call) {
  try {
    return await call();
  } catch (error) {
    return errorOf(error);
  }
}

const decoded = async ({ pixels, marks, report }) => ({ pixels: await digest(pixels), marks: await digest(marks), report });

function someDamages(file) {
  const found = [];
  for (const damage of file.damages()) {
    found.push(damage);
    if (found.length === MAX_DAMAGES) break;
  }
  return found;
}

/** What the calls return of a file. */
async function outcome(bytes, from = module) {
  const file = await Jpeg.from(bytes, { module: from });
  const before = file.memory;
  const header = await attempt(() => file.readHeader());
  const isSmall = (header.pixels ?? 0) <= MAX_PIXELS;
  const found = { header };
  for (const resync of [false, true]) {
    const check = async () => {
      const { marks, report } = file.check({ resync });
      return { marks: await digest(marks), report };
    };
    found[`check ${Number(resync)}`] = await attempt(check);
    found[`decode ${Number(resync)}`] = isSmall ? await attempt(() => decoded(file.decode({ resync }))) : null;
  }
  found.damages = await attempt(() => someDamages(file));
  found.resynchronised = await attempt(async () => {
    const { bytes: inStep, ...rest } = file.resynchronise();
    return { bytes: await digest(inStep), ...rest };
  });
  found.canvas = isSmall ? await attempt(() => digest(file.decode({ layout: 'rgbx' }).pixels)) : null;
  found.lines = isSmall ? await attempt(() => someLines(file)) : null;
  if (file.memory !== before) found.leak = file.memory - before;
  file.close();
  return found;
}

async function someLines(file) {
  const { height } = file.readHeader() ?? { height: 1 };
  const first = Math.floor(height / 3);
  const { pixels, report } = file.decodeLines(first, Math.min(ROWS, height - first));
  return { pixels: await digest(pixels), report };
}

/** Collects what arrives of parts of a file, and what is wrong with it. */
async function arrive(parts, whole) {
  const wrong = [];
  const lines = new Uint8Array(whole.pixels.length);
  const { width, components } = whole.header;
  const marksSeen = [];
  let next = 0;
  let ended = false;
  for await (const event of watch(parts, { module })) {
    if (event.type === 'lines') {
      if (event.firstLine !== next) wrong.push(`line ${event.firstLine}, not ${next}`);
      lines.set(event.pixels, event.firstLine * width * components);
      next += event.lines;
    } else if (event.type === 'marks' || event.type === 'end') {
      const { known, marks } = event;
      if (!isEqual(marks.subarray(0, known), whole.marks.subarray(0, known))) wrong.push(`marks of ${known} at ${event.size}`);
      if (marks.subarray(known).some((mark) => mark !== jri.BLANK)) wrong.push('a mark of an interval that is not whole');
      const damages = whole.damages.filter(({ interval }) => interval < known);
      if (JSON.stringify(event.damages) !== JSON.stringify(damages)) wrong.push(`damage of ${known} at ${event.size}`);
      marksSeen.push(known);
      ended = event.type === 'end';
    }
  }
  if (!ended || !isEqual(lines, whole.pixels)) wrong.push('the image');
  return { wrong, marksSeen };
}

/** The lines of a file that arrives in parts, of which only a window is kept. */
async function throughWindow(bytes, part, whole) {
  const file = await Jpeg.open({ module });
  const lines = new Uint8Array(whole.pixels.length);
  const { width, components } = whole.header;
  const take = () => {
    for (const { firstLine, pixels } of file.rows({ rows: 2 })) lines.set(pixels, firstLine * width * components);
    file.forget();
  };
  for (let at = 0; at < bytes.length; at += part) {
    file.append(bytes.subarray(at, at + part));
    take();
  }
  file.finish();
  take();
  const isRight = file.size === bytes.length && isEqual(lines, whole.pixels);
  file.close();
  return isRight;
}

/** Each cut of a file: its two parts arrive one after the other; and byte by byte. */
async function arrivals(bytes) {
  const file = await Jpeg.from(bytes, { module });
  const whole = { ...file.decode(), damages: [...file.damages()] };
  file.close();
  const wrong = [];
  let known = 0;
  for (let cut = 0; cut <= bytes.length; cut += 1) {
    const found = await arrive([bytes.subarray(0, cut), bytes.subarray(cut)], whole);
    wrong.push(...found.wrong.map((text) => `cut ${cut}: ${text}`));
    known += found.marksSeen.length > 1 && found.marksSeen[0] > 0 ? 1 : 0;
  }
  const each = Array.from(bytes, (_, k) => bytes.subarray(k, k + 1));
  wrong.push(...(await arrive(each, whole)).wrong.map((text) => `byte by byte: ${text}`));
  for (const part of [1, 7, 100, 511]) if (!(await throughWindow(bytes, part, whole))) wrong.push(`through a window, ${part} bytes at a time`);
  return { wrong: wrong.slice(0, 10), cuts: bytes.length + 1, known };
}

/** Limits of the heap that rise by steps: each refuses memory, or gives the image. */
async function refuseMemory(bytes) {
  const file = await Jpeg.from(bytes, { module });
  const { pixels } = file.decode();
  file.close();
  const counts = { refused: 0, decoded: 0, wrong: 0 };
  for (let limit = 0; counts.decoded < 40 && limit < 20_000_000; limit += limit < 400_000 ? 1009 : 40_009) {
    const found = await attempt(() => underLimit(bytes, limit, pixels));
    if (found.error === 'OutOfMemoryError') counts.refused += 1;
    else if (found.isRight) counts.decoded += 1;
    else counts.wrong += 1;
  }
  return counts;
}

async function underLimit(bytes, memoryLimit, pixels) {
  const file = await Jpeg.from(bytes, { module, memoryLimit });
  const before = file.memory;
  try {
    const found = file.decode();
    return { isRight: isEqual(found.pixels, pixels) && file.memory === before };
  } catch (error) {
    if (file.memory !== before) return { isRight: false };
    throw error;
  }
}

/** A stack that is too small traps: that instance has ended, and no other one. */
async function trap(bytes, expected) {
  const small = await load(new URL('small-stack.wasm', import.meta.url));
  const file = await Jpeg.from(bytes, { module: small });
  const other = await Jpeg.from(bytes, { module });
  const neighbour = await Jpeg.open({ module: small });
  const errors = [await attempt(() => file.decode()), await attempt(() => file.readHeader()), await attempt(() => file.check())];
  const after = await digest(other.decode().pixels);
  return { errors: errors.map(({ error }) => error), isSame: after === expected, neighbour: neighbour.version() };
}

/** Ranges outside of the memory are refused before a call. */
async function addresses() {
  const instance = await Instance.of(module);
  const spans = [new Span(2 ** 32 - 16, 64), new Span(2 ** 32, 16), new Span(-16, 16), new Span(0, 2 ** 40), new Span(0.5, 1), new Span(NaN, 1)];
  const refuse = (call) => attempt(call).then(({ error }) => String(error).startsWith('RangeError'));
  const found = [];
  for (const span of spans) {
    found.push(await refuse(() => instance.bytes(span)), await refuse(() => instance.call('jri_build_text', span)));
    found.push(await refuse(() => instance.call('jri_refusal_text', 1, 0n, span)));
  }
  return { refused: found.filter(Boolean).length, of: found.length, isAlive: instance.call('jri_version') === jri.INTERFACE };
}

async function mended(copies) {
  return attempt(async () => {
    const { bytes, intervals, damaged, choices, breaks } = await mend(copies, { module });
    return { bytes: await digest(bytes), intervals, damaged, choices, breaks };
  });
}

async function minimum(count, call) {
  const times = [];
  for (let k = 0; k < count; k += 1) {
    const began = performance.now();
    await call();
    times.push(performance.now() - began);
  }
  return Math.min(...times);
}

/** Milliseconds of the calls on a photo, and of the browser's own decoder. */
async function times(bytes, count) {
  const file = await Jpeg.from(bytes, { module });
  const drawRows = () => {
    file.position = {};
    for (const { pixels, lines } of file.rows({ layout: 'rgbx' })) void new ImageData(new Uint8ClampedArray(pixels.buffer), pixels.length / lines / 4, lines);
  };
  const blob = new Blob([bytes], { type: 'image/jpeg' });
  const found = {
    compile: await minimum(3, async () => WebAssembly.compile(await (await fetch('../page/jri.wasm')).arrayBuffer())),
    open: await minimum(count, () => Jpeg.open({ module })),
    decode: await minimum(count, () => file.decode()),
    rows: await minimum(count, drawRows),
    check: await minimum(count, () => file.check()),
    own: await minimum(count, async () => (await createImageBitmap(blob)).close()),
  };
  const scalar = await Jpeg.from(bytes, { module: await load(new URL('../page/jri-scalar.wasm', import.meta.url)) });
  found.scalar = await minimum(Math.ceil(count / 3), () => scalar.decode());
  return { ...found, memory: file.memory };
}

const WORK = { outcome, arrivals, refuseMemory, mended };

/** Runs the work that the server lists, and returns the outcomes to it. */
async function run() {
  const [list, packed] = await Promise.all([fetch('work.json').then((it) => it.json()), fetch('files.bin').then((it) => it.arrayBuffer())]);
  const files = list.files.map(([at, size]) => new Uint8Array(packed, at, size));
  const found = [];
  for (const { kind, file, copies } of list.work) found.push(await WORK[kind](copies ? copies.map((k) => files[k]) : files[file]));
  const scalar = await load(new URL('../page/jri-scalar.wasm', import.meta.url));
  const scalars = [];
  for (const k of list.scalar) scalars.push(await outcome(files[k], scalar));
  const rest = { scalars, trap: await trap(files[list.trapped], list.trappedPixels), addresses: await addresses() };
  if (list.timed !== null) rest.times = await times(files[list.timed], list.repeats);
  await fetch('findings', { method: 'POST', body: JSON.stringify({ found, ...rest }) });
  return 'done';
}

document.title = await run().catch((error) => `failed: ${error.stack ?? error}`);

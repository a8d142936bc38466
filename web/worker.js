// Decodes, checks and mends in a thread of its own. The page sends the module first, then jobs; each job's events have its number.
import { check, mend, resynchronise, watch } from './jri.js';
import { Queue } from './queue.js';
import { checkedLine, errorLine, explain, mendedLines, mendErrorLine, stateOfError } from './words.js';

/** The parts of a stream that the page reads, by the number of the job. */
const parts = new Map();
let module;

const post = (id, event, transfer = []) => self.postMessage({ id, ...event }, transfer);

/** Returns the smallest step at which an image fits a canvas of these limits, if only each step-th pixel is shown. */
function stepFor({ width, height }, { maxPixels, maxSide }) {
  let step = 1;
  while (Math.ceil(width / step) * Math.ceil(height / step) > maxPixels || Math.max(width, height) / step > maxSide) step += 1;
  return step;
}

/** Returns each step-th pixel of each step-th line of RGBX lines. */
function thin({ firstLine, lines, pixels }, width, step) {
  const source = new Uint32Array(pixels.buffer, pixels.byteOffset, pixels.byteLength / 4);
  const first = Math.ceil(firstLine / step);
  const end = Math.ceil((firstLine + lines) / step);
  const across = Math.ceil(width / step);
  const thinned = new Uint32Array(across * (end - first));
  for (let line = first; line < end; line += 1) {
    const from = (line * step - firstLine) * width;
    const to = (line - first) * across;
    for (let x = 0; x < across; x += 1) thinned[to + x] = source[from + x * step];
  }
  return { row: first, rows: end - first, pixels: new Uint8ClampedArray(thinned.buffer) };
}

function postLines(id, event, { width, step }) {
  const { firstLine, lines, size } = event;
  const whole = () => ({ row: firstLine, rows: lines, pixels: new Uint8ClampedArray(event.pixels.buffer) });
  const { row, rows, pixels } = step === 1 ? whole() : thin(event, width, step);
  post(id, { type: 'lines', row, rows, pixels, lines: firstLine + lines, size }, [pixels.buffer]);
}

/** Shows a source while it arrives. */
async function show(id, { source, limits }) {
  let shape = null;
  for await (const event of watch(source, { layout: 'rgbx', module })) {
    if (event.type === 'header') {
      shape = { width: event.header.width, step: stepFor(event.header, limits) };
      post(id, { ...event, step: shape.step });
    } else if (event.type === 'lines') postLines(id, event, shape);
    else if (event.type === 'end') post(id, { ...event, line: checkedLine(event) });
    else post(id, event);
  }
}

/** Checks a file, and posts its state and jri_check's line. */
async function checkOne(id, { source }) {
  const checked = await check(source, { module });
  const state = checked.report.damaged > 0 ? 'damaged' : 'sound';
  post(id, { type: 'checked', state, line: checkedLine(checked), size: checked.size });
}

async function mendCopies(id, { sources }) {
  const mended = await mend(sources, { module });
  const { bytes, damaged, intervals } = mended;
  post(id, { type: 'mended', bytes, damaged, intervals, lines: mendedLines(mended) }, [bytes.buffer]);
}

async function resynchroniseOne(id, { source }) {
  const { bytes, breaks } = await resynchronise(source, { module });
  post(id, { type: 'resynchronised', bytes, breaks }, [bytes.buffer]);
}

const KINDS = { show, check: checkOne, mend: mendCopies, resynchronise: resynchroniseOne };

async function run({ id, kind, names = [], ...job }) {
  try {
    await KINDS[kind](id, { ...job, source: job.source ?? parts.get(id) });
  } catch (error) {
    const line = kind === 'mend' ? mendErrorLine(error, names) : errorLine(error);
    post(id, { type: 'failed', state: stateOfError(error), line, explanation: explain(error) });
  } finally {
    parts.delete(id);
    post(id, { type: 'done' });
  }
}

self.onmessage = ({ data }) => {
  if (data.kind === 'module') module = data.module;
  else if (data.kind === 'part') parts.get(data.id)?.push(data.bytes);
  else if (data.kind === 'end') parts.get(data.id)?.end();
  else if (data.kind === 'broken') parts.get(data.id)?.fail(new Error(data.message));
  else {
    parts.set(data.id, new Queue());
    run(data);
  }
};

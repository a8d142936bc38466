// What the programs print: the report of jri, the lines of jri_check, and those of jri_mend.
import { CopiesError, DAMAGED, OutOfMemoryError, RefusedError, UnsupportedError } from './jri.js';

const plural = (count, one, many = `${one}s`) => (count === 1 ? one : many);
const hex = (code) => code.toString(16).toUpperCase().padStart(2, '0');

/** The first line without a decoding, and the last one that a damaged interval touches. */
export function damagedLines({ header, damages }) {
  const [{ firstMcu, mcus, decodable }] = damages;
  const mcu = firstMcu + Math.min(decodable, mcus - 1);
  const first = Math.floor(mcu / header.mcusAcross) * header.mcuHeight;
  return { first, last: Math.max(...damages.map(({ lastLine }) => lastLine)) };
}

function afterEnd({ imageEnd, size }) {
  const count = size - imageEnd;
  if (count === 0) return '';
  if (count === 1) return `, 1 byte after the end of the image, at byte ${imageEnd}`;
  return `, ${count} bytes after the end of the image, starting at byte ${imageEnd}`;
}

/** Returns jri_check's line of a file that is checked, without its name. */
export function checkedLine(checked) {
  const { intervals, damaged, ended, text } = checked.report;
  const word = plural(intervals, 'interval');
  const end = (ended === 'EOI' ? '' : `, ${text}`) + afterEnd(checked);
  if (damaged === 0) return `sound, ${intervals} ${word}${end}`;
  const { first, last } = damagedLines(checked);
  return `damaged, ${damaged} of ${intervals} ${word}, lines ${first} to ${last}${end}`;
}

/** Returns jri_check's word for the state of a file with this error. */
export function stateOfError(error) {
  if (error instanceof UnsupportedError) return 'unsupported';
  if (error instanceof RefusedError) return 'refused';
  if (error instanceof OutOfMemoryError) return 'out of memory';
  return 'cannot be read';
}

/** Returns jri_check's line of a file that is not checked, without its name. */
export function errorLine(error) {
  const state = stateOfError(error);
  if (state === 'out of memory') return state;
  if (state === 'cannot be read') return `${state}: ${error.message}`;
  return `${state} ${error.number}: ${error.message}`;
}

/** Returns what an error means to people. */
export function explain(error) {
  if (error instanceof UnsupportedError) {
    const [, kind] = /^(.*) JPEG /.exec(error.message) ?? [];
    const what = kind ? `This file is ${kind}` : 'This file is of another kind';
    return `${what}: jri does not decode it, so it is not checked. Other programs may show it.`;
  }
  if (error instanceof RefusedError) return 'There is no image: this is not a JPEG file, or its header is damaged.';
  if (error instanceof OutOfMemoryError) return 'The browser has no memory for this file. That says nothing about the file.';
  return 'The file could not be read to its end.';
}

/** Returns jri's report of a decoding, two lines. */
export function reportLines({ intervals, sound, damaged, blank, text }) {
  return [`intervals ${intervals} sound ${sound} damaged ${damaged} blank ${blank}`, text];
}

/** Damaged intervals in runs: consecutive ones that have no bytes share a line. */
function runsOf(damages) {
  const runs = [];
  for (const damage of damages) {
    const run = runs.at(-1);
    const isNext = run && damage.end === 0 && run.end === 0 && run.lastInterval + 1 === damage.interval;
    if (!isNext) runs.push({ ...damage, lastInterval: damage.interval });
    else {
      run.lastInterval = damage.interval;
      run.mcus = damage.firstMcu + damage.mcus - run.firstMcu;
      run.lastLine = damage.lastLine;
    }
  }
  return runs;
}

function runLine({ interval, lastInterval, firstMcu, mcus, decodable, firstLine, lastLine, start, end }) {
  const isOne = interval === lastInterval;
  const name = isOne ? `interval ${interval}` : `intervals ${interval} to ${lastInterval}`;
  const place = `${name}, MCUs ${firstMcu} to ${firstMcu + mcus - 1}, lines ${firstLine} to ${lastLine}`;
  const bytes = end === 0 ? 'no bytes' : `bytes ${start} to ${end - 1}`;
  return `${place}, ${bytes}${isOne ? `, ${decodable} of ${mcus} MCUs decodable` : ''}`;
}

/** Returns the lines of `jri_check --map`, without the offset up to which MCUs are decodable, each with the run's place. */
export const damageRuns = (damages) => runsOf(damages).map((run) => ({ ...run, text: runLine(run) }));

/** Returns jri_mend's line of a marker that was out of step; copies are counted from 1. */
export function breakLine({ copy, at, code, due, skipped }) {
  const marker = code >= 0xd0 && code <= 0xd7 ? `RST${code - 0xd0}` : `marker ${hex(code)}`;
  const found = `${marker}, byte ${at}, where RST${due} was due: ${skipped === 0 ? 'passed over' : `${skipped} lost`}`;
  return copy === undefined ? found : `copy ${copy + 1}: ${found}`;
}

const isSameRun = (a, b) => a.copy === b.copy && a.mark === b.mark && a.decodable === b.decodable && a.differs === b.differs;

/** Returns jri_mend's lines of a mended file. */
export function mendedLines({ choices, breaks, isMended }) {
  const lines = breaks.map(breakLine);
  for (let first = 0, next = 0; first < choices.length; first = next) {
    const choice = choices[first];
    while (next < choices.length && isSameRun(choices[next], choice)) next += 1;
    const run = next - first === 1 ? `interval ${first}` : `intervals ${first} to ${next - 1}`;
    const copy = `copy ${choice.copy + 1}`;
    if (choice.mark === DAMAGED) lines.push(`${run}: damaged in all copies, ${copy} decodes ${choice.decodable} MCUs`);
    else lines.push(`${run}: ${copy}${choice.differs ? ', sound in copies with different data' : ''}`);
  }
  if (!isMended) lines.push('nothing to mend: copy 1 is sound');
  return lines;
}

/** Returns why copies are not mended, with the name of the copy. */
export function mendErrorLine(error, names) {
  const name = names[error.copy] ?? null;
  const text = error instanceof CopiesError ? error.message : errorLine(error);
  return name === null ? text : `${name}: ${text}`;
}

/** The states of files in the order in which jri_check counts them. */
export const STATES = ['sound', 'damaged', 'refused', 'unsupported', 'cannot be read', 'out of memory'];

/** Returns jri_check's line of counts; that of sound files is always there. */
export function countsLine(counts) {
  return STATES.filter((state) => state === 'sound' || counts[state] > 0)
    .map((state) => `${counts[state] ?? 0} ${state}`)
    .join(', ');
}

/** Returns a size as people read it. */
export function sizeText(bytes) {
  if (bytes < 1000) return `${bytes} ${plural(bytes, 'byte')}`;
  if (bytes < 1e6) return `${(bytes / 1e3).toFixed(bytes < 1e4 ? 1 : 0)} KB`;
  return `${(bytes / 1e6).toFixed(bytes < 1e7 ? 1 : 0)} MB`;
}

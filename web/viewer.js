// A file that is shown while it arrives: the image, the marks, and the report.
import { BLANK } from './jri.js';
import { Engine } from './engine.js';
import { Bar, limits, Picture } from './picture.js';
import { breakLine, damageRuns, reportLines, sizeText } from './words.js';

/** The maximum number of damaged parts that are listed. */
const MAX_LISTED = 500;
const KIND_TEXTS = { grey: 'grey', rgb: 'RGB', ycbcr: 'YCbCr' };

const byId = (id) => document.getElementById(id);

/** Returns what a header says, in words. */
function factsOf({ width, height, kind, horizontal, vertical, components, intervals }) {
  const sampling = horizontal.slice(0, components).map((h, k) => `${h}x${vertical[k]}`);
  const colours = components === 1 ? KIND_TEXTS[kind] : `${KIND_TEXTS[kind]}, sampling ${sampling.join(' ')}`;
  return `${width} × ${height}, ${colours}, ${intervals} ${intervals === 1 ? 'interval' : 'intervals'}`;
}

export class Viewer {
  #module;
  #announce;
  #engine = null;
  #picture = new Picture({
    frame: byId('frame'),
    image: byId('image'),
    tint: byId('tint'),
    spot: byId('spot'),
    scroller: byId('scroller'),
  });
  #bar = new Bar(byId('bar'));
  #shown = null;
  #runs = [];
  #current = -1;

  constructor(module, announce) {
    this.#module = module;
    this.#announce = announce;
    byId('cancel').onclick = () => this.cancel();
    byId('zoom').onclick = () => this.zoom();
    byId('tint-choice').onchange = ({ target }) => {
      this.#picture.mode = target.value;
    };
    byId('resync').onclick = () => this.#resynchronise();
    byId('other-image').onerror = () => this.#offerOther(null);
  }

  /**
   * Shows a source: a File, or a stream of `total` bytes, or of a number that is not known. Returns once it is shown, failed
   * or cancelled. `note` is a line to show before the report.
   */
  async show({ name, source, total = source.size ?? 0, note = '', download = null }) {
    this.cancel();
    const engine = new Engine(this.#module);
    this.#engine = engine;
    const reader = source instanceof ReadableStream ? source.getReader() : null;
    this.#begin({ name, total, note, download, parts: [], source });
    try {
      const given = reader === null ? source : this.#keep(reader);
      for await (const event of engine.run({ kind: 'show', source: given, limits: limits() })) {
        // What an earlier file left in the queue is of no use.
        if (this.#engine !== engine) return;
        this.#hear(event);
      }
    } catch (error) {
      if (this.#engine === engine) this.#end(error.name === 'AbortError' ? 'cancelled' : 'failed', error.message);
    } finally {
      if (this.#engine === engine) {
        this.#settle();
        await this.#showOther(reader);
      }
      reader?.cancel().catch(() => {});
      engine.stop();
    }
  }

  /** Ends what is shown at the moment, and leaves the lines that are there. */
  cancel() {
    this.#engine?.stop();
  }

  /** Shows the image at its actual size, or to fit. */
  zoom() {
    this.#picture.isActual = !this.#picture.isActual;
    byId('zoom').setAttribute('aria-pressed', String(this.#picture.isActual));
    byId('zoom').textContent = this.#picture.isActual ? 'To fit' : 'Actual size';
  }

  /** Chooses the next tint. */
  nextTint() {
    const choice = byId('tint-choice');
    choice.selectedIndex = (choice.selectedIndex + 1) % choice.options.length;
    this.#picture.mode = choice.value;
  }

  /** Goes to the next damaged part, or by -1 to the previous one. */
  go(by) {
    if (this.#runs.length > 0) this.#choose((this.#current + by + this.#runs.length) % this.#runs.length);
  }

  /** Returns a stream of what a reader returns, and keeps it, so that the file can be resynchronised. */
  #keep(reader) {
    const { parts } = this.#shown;
    return new ReadableStream({
      async pull(controller) {
        const { done, value } = await reader.read();
        if (done) return controller.close();
        parts.push(new Blob([value]));
        controller.enqueue(value);
      },
    });
  }

  /** Shows a file that jri does not support by the browser's own decoder, once the rest of it has been read. */
  async #showOther(reader) {
    const shown = this.#shown;
    if (shown.state !== 'unsupported') return;
    try {
      for (let part = await reader?.read(); part && !part.done; part = await reader.read()) shown.parts.push(new Blob([part.value]));
    } catch {
      // What has come of it is shown.
    }
    if (this.#shown === shown) this.#offerOther(reader === null ? shown.source : new Blob(shown.parts, { type: 'image/jpeg' }));
  }

  /** Has the browser decode a file, or none. */
  #offerOther(file) {
    const image = byId('other-image');
    if (image.src) URL.revokeObjectURL(image.src);
    byId('other').hidden = file === null;
    if (file === null) image.removeAttribute('src');
    else image.src = URL.createObjectURL(file);
  }

  #begin(shown) {
    this.#shown = { ...shown, header: null, lines: 0 };
    byId('viewer').classList.remove('has-no-image');
    this.#picture.clear();
    this.#bar.marks = new Uint8Array([BLANK]);
    byId('viewer').hidden = false;
    byId('viewer').setAttribute('aria-busy', 'true');
    byId('name').textContent = shown.name;
    document.title = `${shown.name} – jri`;
    byId('facts').textContent = 'Waiting for the header';
    byId('report').textContent = shown.note;
    byId('cancel').hidden = false;
    byId('scaled').hidden = true;
    byId('resync').hidden = true;
    byId('damage').hidden = true;
    this.#offerOther(null);
    this.#offer(shown.download);
    this.#state('arriving', '');
    byId('progress').classList.remove('is-done');
    this.#progress(0);
  }

  #state(text, kind) {
    byId('state').textContent = text;
    byId('state').className = `badge ${kind}`;
  }

  #hear(event) {
    const { type } = event;
    if (type === 'header') this.#start(event);
    else if (type === 'lines') {
      this.#picture.draw(event);
      this.#shown.lines = event.lines;
    } else if (type === 'marks') this.#mark(event);
    else if (type === 'end') this.#finish(event);
    else if (type === 'failed') this.#end(event.state, event.line, event.explanation);
    if (event.size !== undefined && type !== 'end') this.#progress(event.size);
  }

  #start({ header, step }) {
    this.#shown.header = header;
    this.#picture.begin(header, step);
    byId('facts').textContent = factsOf(header);
    byId('scaled').hidden = step === 1;
    byId('scaled').textContent = `The image is large: one pixel in ${step} across and down is shown. All of it is decoded.`;
  }

  #progress(size) {
    const { total, header, lines } = this.#shown;
    const progress = byId('progress');
    if (total > 0) progress.value = size / total;
    else progress.removeAttribute('value');
    const part = total > 0 ? `${sizeText(size)} of ${sizeText(total)}` : `${sizeText(size)} so far`;
    if (header) byId('facts').textContent = `${factsOf(header)}. ${part}, ${lines} of ${header.height} lines`;
    else byId('facts').textContent = part;
  }

  #mark({ marks, damages }) {
    this.#bar.marks = marks;
    this.#picture.mark(marks, damages);
    if (damages.length > 0) this.#state('arriving, damaged', 'damaged');
  }

  #finish(event) {
    const { header, report, line, size, damages } = event;
    this.#bar.marks = event.marks;
    this.#picture.mark(event.marks, damages);
    const kind = report.damaged > 0 ? 'damaged' : 'sound';
    byId('facts').textContent = `${factsOf(header)}. ${sizeText(size)}`;
    this.#end(kind, [...reportLines(report), `${this.#shown.name}: ${line}`].join('\n'));
    byId('resync').hidden = kind === 'sound' || header.restart === 0 || this.#shown.download !== null;
    this.#list(damages);
  }

  /** Shows how it ended, and says it. */
  #end(state, text, explanation = '') {
    const { note, name, header } = this.#shown;
    this.#shown.state = state;
    const isKind = state === 'sound' || state === 'damaged';
    this.#state(state, isKind ? state : '');
    if (explanation !== '') byId('facts').textContent = explanation;
    byId('viewer').classList.toggle('has-no-image', header === null && !isKind);
    byId('report').textContent = [note, isKind || state === 'cancelled' ? text : `${name}: ${text}`].filter(Boolean).join('\n');
    this.#announce(`${name}: ${state}. ${explanation}`);
  }

  #settle() {
    byId('cancel').hidden = true;
    byId('progress').classList.add('is-done');
    byId('viewer').removeAttribute('aria-busy');
  }

  #list(damages) {
    this.#runs = damageRuns(damages);
    this.#current = -1;
    byId('damage').hidden = this.#runs.length === 0;
    byId('damages').replaceChildren(...this.#runs.slice(0, MAX_LISTED).map((run, k) => this.#item(run.text, k)));
    const left = this.#runs.length - MAX_LISTED;
    if (left > 0) byId('damages').append(Object.assign(document.createElement('li'), { textContent: `${left} more` }));
  }

  #item(text, number) {
    const item = document.createElement('li');
    const button = Object.assign(document.createElement('button'), { type: 'button', textContent: text });
    button.onclick = () => this.#choose(number);
    item.append(button);
    return item;
  }

  #choose(number) {
    const buttons = [...byId('damages').querySelectorAll('button')];
    buttons[this.#current]?.removeAttribute('aria-current');
    this.#current = number;
    buttons[number]?.setAttribute('aria-current', 'true');
    buttons[number]?.scrollIntoView({ block: 'nearest' });
    this.#picture.outline(this.#runs[number]);
    this.#announce(this.#runs[number].text);
  }

  /** Offers a file for download, or none. */
  #offer(file) {
    const link = byId('save');
    if (link.href) URL.revokeObjectURL(link.href);
    link.hidden = file === null;
    if (file === null) return;
    link.href = URL.createObjectURL(file);
    link.download = file.name;
    link.textContent = `Download ${file.name}`;
  }

  /** Shows the file with its restart markers in step, and offers it. */
  async #resynchronise() {
    const { name, source, parts } = this.#shown;
    const file = source instanceof ReadableStream ? new Blob(parts) : source;
    const engine = new Engine(this.#module);
    byId('resync').disabled = true;
    try {
      for await (const event of engine.run({ kind: 'resynchronise', source: file })) {
        if (event.type === 'failed') this.#end(event.state, event.line, event.explanation);
        else await this.#showResynchronised(name, event);
      }
    } finally {
      byId('resync').disabled = false;
      engine.stop();
    }
  }

  #showResynchronised(name, { bytes, breaks }) {
    const file = new File([bytes], `resynchronised-${name.split('/').pop()}`, { type: 'image/jpeg' });
    const note = breaks.map(breakLine).join('\n');
    return this.show({ name, source: file, download: file, note });
  }
}

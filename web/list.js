// The files that are checked: a line for each, in jri_check's words, a filter, and the copies to mend.
import { MAX_COPIES } from './jri.js';
import { Engine } from './engine.js';
import { countsLine, STATES } from './words.js';

/** Rows of more files are not drawn: the counts and the filters have them. */
const MAX_ROWS = 5000;
const MAX_ENGINES = 4;
/** As many files are likely to be copies of one. */
const FEW = 3;
/** The filters, in their order. */
const FILTERS = ['all', ...STATES];

const byId = (id) => document.getElementById(id);

export class List {
  #module;
  #onShow;
  #onMended;
  #announce;
  #entries = [];
  #rows = [];
  #counts = {};
  #checked = 0;
  #filter = 'all';
  #run = null;

  constructor(module, { onShow, onMended, announce }) {
    this.#module = module;
    this.#onShow = onShow;
    this.#onMended = onMended;
    this.#announce = announce;
    byId('list-cancel').onclick = () => {
      this.cancel();
      this.#count();
    };
    byId('mend').onclick = () => this.#mend();
    byId('filters').append(...FILTERS.map((name) => this.#filterButton(name)));
  }

  /** Checks entries, and shows a row for each. */
  async check(entries) {
    this.cancel();
    this.#entries = entries;
    this.#counts = {};
    this.#checked = 0;
    byId('list').hidden = false;
    byId('list-cancel').hidden = false;
    byId('mended').hidden = true;
    this.#rows = entries.slice(0, MAX_ROWS).map((entry, number) => this.#row(entry, number));
    byId('rows').replaceChildren(...this.#rows.map(({ item }) => item));
    byId('more').hidden = entries.length <= MAX_ROWS;
    byId('more').textContent = `The first ${MAX_ROWS} files are listed, and all ${entries.length} are checked.`;
    this.#show('all');
    this.#choose();
    await this.#checkAll(entries);
  }

  /** Ends the checks. */
  cancel() {
    this.#run?.engines.forEach((engine) => engine.stop());
    this.#run = null;
    byId('list-cancel').hidden = true;
  }

  /** Marks the row of the entry that is shown. */
  mark(entry) {
    this.#rows.forEach(({ item }, k) => item.classList.toggle('is-shown', this.#entries[k] === entry));
  }

  async #checkAll(entries) {
    const count = Math.max(1, Math.min(MAX_ENGINES, (navigator.hardwareConcurrency ?? 2) - 1, entries.length));
    const run = { engines: Array.from({ length: count }, () => new Engine(this.#module)), began: performance.now(), next: 0 };
    this.#run = run;
    this.#count();
    await Promise.all(run.engines.map((engine) => this.#checkSome(engine, run)));
    if (this.#run !== run) return;
    this.cancel();
    this.#count();
    this.#announce(`${entries.length} files: ${countsLine(this.#counts)}`);
  }

  /** Checks the next entries with one worker, until none is left. */
  async #checkSome(engine, run) {
    while (this.#run === run && run.next < this.#entries.length) {
      const number = run.next;
      run.next += 1;
      const found = await this.#checkOne(engine, this.#entries[number]);
      if (this.#run === run) this.#report(number, found);
    }
  }

  async #checkOne(engine, entry) {
    let found = null;
    try {
      for await (const event of engine.run({ kind: 'check', source: await entry.open() })) found = event;
    } catch (error) {
      found = { state: 'cannot be read', line: `cannot be read: ${error.message}` };
    }
    return found;
  }

  #report(number, { state, line }) {
    this.#counts[state] = (this.#counts[state] ?? 0) + 1;
    this.#checked += 1;
    const row = this.#rows[number];
    if (row) {
      row.state = state;
      row.item.className = [state.replaceAll(' ', '-'), row.item.classList.contains('is-shown') ? 'is-shown' : ''].join(' ').trim();
      row.text.textContent = line;
      row.item.hidden = !this.#matches(state);
    }
    this.#count();
  }

  #count() {
    const total = this.#entries.length;
    byId('list-progress').value = total === 0 ? 1 : this.#checked / total;
    byId('list-progress').classList.toggle('is-done', this.#run === null || this.#checked === total);
    const seconds = (performance.now() - (this.#run?.began ?? 0)) / 1000;
    const rate = seconds > 1 ? `, ${Math.round(this.#checked / seconds)} files/s` : '';
    const isRunning = this.#run !== null && this.#checked < total;
    byId('counts').textContent = isRunning
      ? `${this.#checked} of ${total} files, ${this.#counts.damaged ?? 0} damaged${rate}`
      : countsLine(this.#counts);
    for (const label of byId('filters').children) {
      const name = label.dataset.state;
      const count = name === 'all' ? this.#checked : (this.#counts[name] ?? 0);
      label.lastChild.textContent = `${name} ${count}`;
      label.hidden = count === 0 && name !== 'all' && name !== 'damaged';
    }
  }

  #filterButton(name) {
    const label = document.createElement('label');
    const input = Object.assign(document.createElement('input'), { type: 'radio', name: 'filter', value: name });
    label.dataset.state = name;
    input.onchange = () => this.#show(name);
    label.append(input, document.createTextNode(name));
    return label;
  }

  #matches(state) {
    return this.#filter === 'all' || this.#filter === state;
  }

  #show(filter) {
    this.#filter = filter;
    byId('filters').querySelector(`[value="${filter}"]`).checked = true;
    for (const { item, state } of this.#rows) item.hidden = !this.#matches(state);
  }

  #row(entry, number) {
    const item = document.createElement('li');
    const pick = Object.assign(document.createElement('label'), { className: 'pick' });
    const box = Object.assign(document.createElement('input'), { type: 'checkbox', ariaLabel: `Select ${entry.name}` });
    box.onchange = () => this.#choose();
    pick.append(box);
    const button = Object.assign(document.createElement('button'), { type: 'button' });
    const name = Object.assign(document.createElement('b'), { textContent: entry.name });
    const text = Object.assign(document.createElement('span'), { textContent: 'waiting' });
    button.append(name, text);
    button.onclick = () => this.#onShow(this.#entries[number]);
    item.append(pick, button);
    return { item, box, text, state: 'waiting' };
  }

  /** The selected entries; if none is, all of a list that is likely to be copies of one file. */
  #copies() {
    const selected = this.#entries.filter((_, k) => this.#rows[k]?.box.checked);
    return selected.length === 0 && areLikelyCopies(this.#entries) ? this.#entries : selected;
  }

  #choose() {
    const count = this.#copies().length;
    byId('mend').disabled = count < 2 || count > MAX_COPIES;
    byId('mend').textContent = count > 1 && count <= MAX_COPIES ? `Mend ${count} files as copies of one` : 'Mend as copies of one file';
    byId('mend-hint').hidden = count > 1 && count <= MAX_COPIES;
  }

  async #mend() {
    const copies = this.#copies();
    const names = copies.map(({ name }) => name);
    const engine = new Engine(this.#module);
    byId('mend').disabled = true;
    try {
      const sources = await Promise.all(copies.map(asBlob));
      for await (const event of engine.run({ kind: 'mend', sources, names })) this.#tellMended(event, names);
    } catch (error) {
      this.#tellMended({ type: 'failed', line: error.message }, names);
    } finally {
      engine.stop();
      this.#choose();
    }
  }

  #tellMended(event, names) {
    const isMended = event.type === 'mended';
    byId('mended').hidden = false;
    const left = isMended && event.damaged > 0 ? `, ${event.damaged} of ${event.intervals} intervals damaged in all copies` : '';
    byId('mended-title').textContent = isMended ? `Mended from ${names.length} copies${left}` : 'Not mended';
    const key = names.map((name, k) => `copy ${k + 1}: ${name}`);
    byId('mended-lines').textContent = isMended ? [...key, '', ...event.lines].join('\n') : event.line;
    byId('mended-link').hidden = !isMended;
    this.#announce(byId('mended-title').textContent);
    if (!isMended) return;
    const file = new File([event.bytes], 'mended.jpg', { type: 'image/jpeg' });
    const link = byId('mended-link');
    if (link.href) URL.revokeObjectURL(link.href);
    link.href = URL.createObjectURL(file);
    this.#onMended(file);
  }
}

/** Few files, or files of one name in several directories. */
function areLikelyCopies(entries) {
  const names = new Set(entries.map(({ name }) => name.split('/').pop()));
  return entries.length <= FEW || (entries.length <= MAX_COPIES && names.size === 1);
}

/** A stream cannot be sent to a worker in every browser. */
async function asBlob(entry) {
  const source = await entry.open();
  return source instanceof ReadableStream ? new Response(source).blob() : source;
}

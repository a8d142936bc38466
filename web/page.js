// The page: where files come from, and what is shown.
//
//     index.html?url=photo.jpg       shows a file of a server while it arrives
//     index.html?list=files.json     lists files of a server: [{"name": .., "url": .., "size": ..}, ..]
import { load, Jpeg } from './jri.js';
import { List } from './list.js';
import { entriesOfDrop, entriesOfInput, entriesOfServer, entryOf } from './picked.js';
import { forbidConnections } from './policy.js';
import { Viewer } from './viewer.js';

const byId = (id) => document.getElementById(id);
const parameters = new URLSearchParams(location.search);

const announce = (text) => {
  byId('announce').textContent = text;
};

function complain(text) {
  byId('message').textContent = text;
  byId('message').hidden = text === '';
}

/** Without SIMD a module without it is loaded. */
const SIMD = new Uint8Array([0, 97, 115, 109, 1, 0, 0, 0, 1, 5, 1, 96, 0, 1, 123, 3, 2, 1, 0, 10, 10, 1, 8, 0, 65, 0, 253, 15, 253, 98, 11]);
const moduleUrl = () => new URL(WebAssembly.validate(SIMD) ? 'jri.wasm' : 'jri-scalar.wasm', import.meta.url);

class Page {
  #viewer;
  #list;

  constructor(module) {
    this.#viewer = new Viewer(module, announce);
    this.#list = new List(module, {
      announce,
      onShow: (entry) => this.choose(entry),
      onMended: (file) => this.show(entryOf(file)),
    });
  }

  /** Shows one entry. */
  async show(entry) {
    this.#open();
    this.#list.mark(entry);
    try {
      const source = await entry.open();
      byId('main').classList.toggle('is-both', !byId('list').hidden);
      await this.#viewer.show({ name: entry.name, source, total: entry.size });
    } catch (error) {
      complain(`${entry.name}: ${error.message}`);
    }
  }

  /** Shows an entry of the list, which on narrow screens is above the image. */
  choose(entry) {
    const shown = this.show(entry);
    byId('viewer').hidden = false;
    if (!matchMedia('(min-width: 1080px)').matches) byId('viewer').scrollIntoView({ block: 'start' });
    return shown;
  }

  /** Shows one entry, or checks several. */
  async take(entries) {
    this.#open();
    if (entries.length === 0) complain('There is no JPEG file among these: none ends in .jpg, .jpeg, .jpe or .jfif.');
    else if (entries.length === 1) {
      this.#list.cancel();
      byId('list').hidden = true;
      await this.show(entries[0]);
    } else {
      this.#viewer.cancel();
      byId('viewer').hidden = true;
      byId('main').classList.remove('is-both');
      await this.#list.check(entries);
    }
  }

  #open() {
    complain('');
    byId('start').hidden = true;
  }

  listen() {
    for (const id of ['files', 'folder']) {
      byId(id).disabled = false;
      byId(id).onchange = ({ target }) => {
        const entries = entriesOfInput(target);
        target.value = '';
        if (entries.length > 0 || id === 'folder') this.take(entries);
      };
    }
    byId('drop').onclick = () => byId('files').click();
    document.ondragover = (event) => event.preventDefault();
    document.ondragenter = () => document.body.classList.add('is-over');
    document.ondragleave = ({ relatedTarget }) => {
      if (relatedTarget === null) document.body.classList.remove('is-over');
    };
    document.ondrop = async (event) => {
      event.preventDefault();
      document.body.classList.remove('is-over');
      this.take(await entriesOfDrop(event.dataTransfer));
    };
    document.onkeydown = (event) => this.#key(event);
  }

  #key({ key, target, ctrlKey, metaKey, altKey }) {
    if (ctrlKey || metaKey || altKey || target.matches('select, input:not([type="checkbox"], [type="radio"], [type="file"])')) return;
    const keys = {
      o: () => byId('files').click(),
      f: () => this.#viewer.zoom(),
      t: () => this.#viewer.nextTint(),
      n: () => this.#viewer.go(1),
      p: () => this.#viewer.go(-1),
      Escape: () => {
        this.#viewer.cancel();
        this.#list.cancel();
      },
    };
    keys[key]?.();
  }
}

/** Forbids connections, and says so. */
function lock(allowed, text) {
  forbidConnections(allowed);
  byId('locked').textContent = text;
}

/** Opens what the address names. Local files are taken only once connections are forbidden. */
async function openNamed(page) {
  const url = parameters.get('url');
  const list = parameters.get('list');
  const nothing = 'Nothing is uploaded: this page has forbidden itself every connection.';
  if (list !== null) {
    const entries = await entriesOfServer(new URL(list, location.href));
    const directory = new URL('files/', new URL(list, location.href)).href;
    lock([directory], 'Nothing is uploaded: this page has forbidden itself every connection but to the files of this list.');
    page.take(entries);
  } else if (url !== null) {
    const address = new URL(url, location.href);
    const name = parameters.get('name') ?? decodeURIComponent(address.pathname.split('/').pop());
    const { body, headers } = await fetchFile(address);
    lock([], nothing);
    page.take([{ name, size: Number(headers.get('content-length') ?? 0), open: async () => body }]);
  } else lock([], nothing);
}

async function fetchFile(address) {
  const response = await fetch(address);
  if (!response.ok) throw new Error(`${address}: status ${response.status}`);
  return response;
}

async function start() {
  const module = await load(moduleUrl());
  const page = new Page(module);
  const version = await Jpeg.open({ module });
  byId('build').textContent = version.buildText();
  version.close();
  try {
    await openNamed(page);
  } catch (error) {
    lock([], 'Nothing is uploaded: this page has forbidden itself every connection.');
    complain(`The file cannot be read: ${error.message}`);
  }
  page.listen();
  document.documentElement.dataset.ready = 'true';
}

if (!('webkitdirectory' in document.createElement('input')) || matchMedia('(pointer: coarse)').matches) byId('folder-button').hidden = true;
start().catch((error) => {
  byId('locked').textContent = '';
  complain(`The decoder cannot be loaded: ${error.message}`);
});

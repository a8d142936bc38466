// Files that are chosen or dropped, and the entries of the list.

/** What `jri_check -r` reads in a directory. */
const ENDINGS = /\.(jpg|jpeg|jpe|jfif)$/i;

const byName = (a, b) => (a.name < b.name ? -1 : a.name > b.name ? 1 : 0);

/**
 * A file of the list: `open` returns its bytes, a File or a stream.
 * @typedef {{ name: string, size: number, open: () => Promise<File | ReadableStream<Uint8Array>> }} Entry
 */

/** @returns {Entry} */
export const entryOf = (file, name = file.name) => ({ name, size: file.size, open: async () => file });

/** Returns the entries of files that are chosen: those of a directory that are JPEG files by their names, in their order. */
export function entriesOfInput({ files, webkitdirectory }) {
  const list = [...files];
  if (!webkitdirectory) return list.map((file) => entryOf(file));
  return list
    .filter(({ name }) => ENDINGS.test(name))
    .map((file) => entryOf(file, file.webkitRelativePath || file.name))
    .sort(byName);
}

const fileOf = (entry) => new Promise((resolve, reject) => entry.file(resolve, reject));

/** A reader returns some entries of a directory at a time. */
async function* childrenOf(directory) {
  const reader = directory.createReader();
  for (;;) {
    const some = await new Promise((resolve, reject) => reader.readEntries(resolve, reject));
    if (some.length === 0) return;
    yield* some;
  }
}

async function* filesBelow(entry, path) {
  if (entry.isFile) {
    if (ENDINGS.test(entry.name)) yield entryOf(await fileOf(entry), `${path}${entry.name}`);
  } else {
    for await (const child of childrenOf(entry)) yield* filesBelow(child, `${path}${entry.name}/`);
  }
}

async function collect(entries) {
  const found = [];
  for await (const entry of entries) found.push(entry);
  return found;
}

/**
 * Returns the entries of what is dropped: each file, and the JPEG files of each directory.
 * @returns {Promise<Entry[]>}
 */
export async function entriesOfDrop(transfer) {
  // The items are gone after the first wait.
  const items = [...transfer.items].filter(({ kind }) => kind === 'file').map((item) => item.webkitGetAsEntry?.() ?? item.getAsFile());
  const found = [];
  for (const item of items) {
    if (item === null) continue;
    if (item instanceof File) found.push(entryOf(item));
    else if (item.isFile) found.push(entryOf(await fileOf(item)));
    else found.push(...(await collect(filesBelow(item, ''))).sort(byName));
  }
  return found;
}

/**
 * Returns the entries of a list that a server has: an array of names, addresses and sizes. A size of null is not known yet.
 * @returns {Promise<Entry[]>}
 */
export async function entriesOfServer(address) {
  const response = await fetch(address);
  if (!response.ok) throw new Error(`${address}: status ${response.status}`);
  const list = await response.json();
  return list.map(({ name, url, size }) => ({ name, size: size ?? 0, open: () => openAddress(new URL(url, response.url)) }));
}

/** Returns the body of an address as a stream. */
async function openAddress(address) {
  const response = await fetch(address);
  if (!response.ok) throw new Error(`${address}: status ${response.status}`);
  return response.body;
}

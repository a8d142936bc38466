// The compiled module, which instances share.
import { JriError } from './errors.js';

/** The module compiled for `load`, by its URL. */
const compiled = new Map();

/**
 * Compiles the module, once for each URL.
 * @param {string | URL} [url]
 * @returns {Promise<WebAssembly.Module>}
 */
export function load(url = new URL('jri.wasm', import.meta.url)) {
  const key = String(url);
  if (!compiled.has(key)) {
    const module = compile(url);
    module.catch(() => compiled.delete(key));
    compiled.set(key, module);
  }
  return compiled.get(key);
}

/** Servers that do not know the type of a module get no streaming compilation. */
async function compile(url) {
  const response = await fetch(url);
  if (!response.ok) throw new JriError(`${url}: status ${response.status}`);
  const isTyped = response.headers.get('content-type') === 'application/wasm';
  return isTyped ? WebAssembly.compileStreaming(response) : WebAssembly.compile(await response.arrayBuffer());
}

// What a file's bytes can come from.
import { JriError } from './errors.js';

/**
 * Yields the bytes of a source in parts: bytes, a Blob or File, a Response, a ReadableStream, or an iterable of parts.
 * @param {import('./jri.js').Source} source
 * @returns {AsyncGenerator<Uint8Array>}
 */
export async function* chunksOf(source) {
  if (source instanceof ArrayBuffer) yield new Uint8Array(source);
  else if (ArrayBuffer.isView(source)) yield new Uint8Array(source.buffer, source.byteOffset, source.byteLength);
  else if (source instanceof Blob) yield* readAll(source.stream().getReader());
  else if (typeof Response !== 'undefined' && source instanceof Response) yield* chunksOf(bodyOf(source));
  else if (typeof source?.getReader === 'function') yield* readAll(source.getReader());
  else if (source?.[Symbol.asyncIterator] || source?.[Symbol.iterator]) {
    for await (const part of source) yield* chunksOf(part);
  } else throw new TypeError('expected bytes, a Blob, a Response, a stream or an iterable of bytes');
}

function bodyOf(response) {
  if (!response.ok) throw new JriError(`${response.url}: status ${response.status}`);
  return response.body ?? [];
}

async function* readAll(reader) {
  try {
    for (;;) {
      const { done, value } = await reader.read();
      if (done) return;
      yield value;
    }
  } finally {
    await reader.cancel().catch(() => {});
  }
}

// Workers that decode, check and mend, as the page sees them.
import { Queue } from './queue.js';

/** A worker of a blob has the page's policy at the time, whatever the server says of the worker's file. */
function startWorker() {
  const address = new URL('worker.js', import.meta.url).href;
  const blob = URL.createObjectURL(new Blob([`import ${JSON.stringify(address)};`], { type: 'text/javascript' }));
  const worker = new Worker(blob, { type: 'module' });
  worker.addEventListener('message', () => URL.revokeObjectURL(blob), { once: true });
  return worker;
}

/** A worker, and the jobs that it runs. */
export class Engine {
  #worker = startWorker();
  #jobs = new Map();
  #readers = new Set();
  #count = 0;

  /** @param {WebAssembly.Module} module */
  constructor(module) {
    this.#worker.onmessage = ({ data: { id, ...event } }) => this.#hear(id, event);
    this.#worker.onerror = (event) => this.#fail(new Error(event.message ?? 'the worker failed'));
    this.#worker.postMessage({ kind: 'module', module });
  }

  /**
   * Starts a job and returns its events. A source that is a stream is read here, and its parts are sent.
   * @returns {AsyncIterable<object>}
   */
  run(job) {
    this.#count += 1;
    const id = this.#count;
    const events = new Queue();
    this.#jobs.set(id, events);
    const isStream = job.source instanceof ReadableStream;
    this.#worker.postMessage({ id, ...job, source: isStream ? null : job.source });
    if (isStream) this.#send(id, job.source);
    return events;
  }

  /** Ends the worker at once, and all its jobs. */
  stop() {
    this.#worker.terminate();
    this.#fail(new DOMException('cancelled', 'AbortError'));
  }

  async #send(id, stream) {
    const reader = stream.getReader();
    this.#readers.add(reader);
    try {
      for (;;) {
        const { done, value } = await reader.read();
        if (done) break;
        this.#worker.postMessage({ id, kind: 'part', bytes: value }, [value.buffer]);
      }
      this.#worker.postMessage({ id, kind: 'end' });
    } catch (error) {
      this.#worker.postMessage({ id, kind: 'broken', message: error.message });
    } finally {
      this.#readers.delete(reader);
    }
  }

  #hear(id, event) {
    const events = this.#jobs.get(id);
    if (event.type !== 'done') events?.push(event);
    else {
      this.#jobs.delete(id);
      events?.end();
    }
  }

  #fail(error) {
    for (const events of this.#jobs.values()) events.fail(error);
    for (const reader of this.#readers) reader.cancel().catch(() => {});
    this.#jobs.clear();
  }
}

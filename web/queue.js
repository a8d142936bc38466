// A queue that is read by an async iterator.

/** Values that come one after another, until `end` or `fail`. */
export class Queue {
  #values = [];
  #ended = false;
  #error = null;
  #wake = () => {};

  push(value) {
    if (this.#ended) return;
    this.#values.push(value);
    this.#wake();
  }

  end() {
    this.#ended = true;
    this.#wake();
  }

  fail(error) {
    this.#error ??= error;
    this.end();
  }

  async *[Symbol.asyncIterator]() {
    for (;;) {
      while (this.#values.length > 0) yield this.#values.shift();
      if (this.#error) throw this.#error;
      if (this.#ended) return;
      await new Promise((wake) => {
        this.#wake = wake;
      });
    }
  }
}

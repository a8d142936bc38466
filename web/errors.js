// What can go wrong. Every error that jri.js throws is one of these, apart from a TypeError or a RangeError of a wrong
// argument, and from errors of the source that is read.

/** An error of libjri or of the module that has it. */
export class JriError extends Error {
  /**
   * @param {string} message
   * @param {ErrorOptions} [options]
   */
  constructor(message, options) {
    super(message, options);
    this.name = new.target.name;
  }
}

/** A file that jri does not decode. `number`, 1 to 18, and `detail` say why, as in jri.h; the message is jri's text. */
export class RefusedError extends JriError {
  /**
   * @param {number} number
   * @param {number} detail
   * @param {string} message
   */
  constructor(number, detail, message) {
    super(message);
    this.number = number;
    this.detail = detail;
  }
}

/** A file that is refused for what valid JPEG files may have, such as a progressive frame. It is not checked. */
export class UnsupportedError extends RefusedError {}

/** The memory of an instance has reached its limit, or the browser's. It says nothing about the file. */
export class OutOfMemoryError extends JriError {
  /** @param {ErrorOptions} [options] */
  constructor(options) {
    super('out of memory', options);
  }
}

/** Lines or rows that the image does not have. */
export class NoLinesError extends JriError {
  constructor() {
    super('the image has no such lines');
  }
}

/** Copies that cannot be mended together. `copy` is the number of the one that does not fit, from 0, or null. */
export class CopiesError extends JriError {
  /**
   * @param {string} message
   * @param {number | null} copy
   */
  constructor(message, copy = null) {
    super(message);
    this.copy = copy;
  }
}

/** A call trapped, or was made after the trap or after `close`. Other instances are not affected. */
export class EndedError extends JriError {}

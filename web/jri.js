// libjri in a web page: the calls of jri.h over bytes, streams and files. One instance of the module has one file, so that
// whatever a file does to its instance ends with it.
//
//     import { decode, watch } from './jri.js';
//     const { header, pixels } = await decode(await fetch('photo.jpg'), { layout: 'rgbx' });
//     for await (const event of watch(file)) ..
import { Jpeg } from './jpeg.js';

export * from './errors.js';
export { BLANK, DAMAGED, Jpeg, SOUND } from './jpeg.js';
export { MAX_COPIES, mend } from './mend.js';
export { load } from './module.js';
export { unsupportedText } from './refusals.js';
export { chunksOf } from './sources.js';
export { watch } from './watch.js';

/** The number of the interface, JRI_VERSION of jri.h. */
export const INTERFACE = 11;

/** Returns what `use` returns of a whole file, in an instance that is freed afterwards. */
async function withFile(source, options, use) {
  const file = await Jpeg.from(source, options);
  try {
    return use(file);
  } finally {
    file.close();
  }
}

/** Reads the header of a source. */
export const readHeader = (source, options) => withFile(source, options, (file) => file.readHeader());

/** Decodes a source. */
export const decode = (source, options) => withFile(source, options, (file) => file.decode(options));

/** Checks a source, and lists its damage. */
export const check = (source, options = {}) =>
  withFile(source, options, (file) => {
    const checked = file.check(options);
    return { ...checked, damages: checked.report.damaged > 0 && !options.resync ? [...file.damages()] : [] };
  });

/** Writes a source with its restart markers in step. */
export const resynchronise = (source, options) => withFile(source, options, (file) => file.resynchronise());

// Which refusals a valid file may have, and their texts: as jri_check reports them.

const UNEXPECTED_MARKER = 4;
const NOT_BASELINE = 5;
const SOF0 = 0xc0;

/** The markers that only arithmetic-coded and hierarchical files have. */
const MARKERS = new Map([
  [0xcc, 'arithmetic-coded JPEG (DAC) is not supported'],
  [0xde, 'hierarchical JPEG (DHP) is not supported'],
]);

/** The kinds of frames that are not hierarchical, by their codes (T.81, table B.1). */
const FRAMES = new Map([
  [0xc2, 'progressive JPEG'],
  [0xc3, 'lossless JPEG'],
  [0xc9, 'arithmetic-coded JPEG'],
  [0xca, 'arithmetic-coded progressive JPEG'],
  [0xcb, 'arithmetic-coded lossless JPEG'],
]);

const OTHERS = new Map([
  [10, 'samples of other than 8 bits are not supported'],
  [11, 'a width or height of 0 (DNL) is not supported'],
  [12, 'more than 268,435,456 pixels are not supported'],
  [13, 'only 1 or 3 components are supported'],
  [14, 'these sampling factors are not supported'],
  [15, 'only one scan of all components is supported'],
  [17, 'tables that are not in the file are not supported'],
  [18, 'more than 1,073,741,824 bytes are not supported'],
]);

/**
 * Returns what a valid file with this refusal has that jri does not decode; null if no valid file has this refusal.
 * @param {number} number
 * @param {number} detail
 * @returns {string | null}
 */
export function unsupportedText(number, detail) {
  if (number === NOT_BASELINE) {
    return `${FRAMES.get(detail) ?? 'hierarchical JPEG'} (SOF${detail - SOF0}) is not supported`;
  }
  return (number === UNEXPECTED_MARKER ? MARKERS.get(detail) : OTHERS.get(number)) ?? null;
}

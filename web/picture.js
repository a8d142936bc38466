// The image of a file, and what is drawn over it.
import { DAMAGED, SOUND } from './jri.js';

/** More pixels than this are not shown each: the canvas would take 400 MB. */
const MAX_PIXELS = 100e6;
/** Browsers allow canvases of at least this many pixels a side, or of this many in all. */
const MAX_SIDE = 16384;
const PHONE_PIXELS = 16_777_216;
/** An image with fewer pixels across is shown larger. */
const SMALL = 256;
const MAX_ENLARGEMENT = 16;

const isPhone = () => matchMedia('(pointer: coarse)').matches && Math.min(screen.width, screen.height) < 900;

/** Returns what fits a canvas here. */
export const limits = () => ({ maxPixels: isPhone() ? PHONE_PIXELS : MAX_PIXELS, maxSide: MAX_SIDE });

/** Returns a colour of the style sheet as red, green, blue, of 0 to 255. */
function colourOf(name) {
  const [, r, g, b] = /#(..)(..)(..)/.exec(getComputedStyle(document.documentElement).getPropertyValue(name));
  return [r, g, b].map((part) => parseInt(part, 16));
}

export class Picture {
  #frame;
  #image;
  #tint;
  #spot;
  #scroller;
  #header = null;
  #marks = null;
  #damages = [];
  #isActual = false;
  #mode = 'damage';

  constructor({ frame, image, tint, spot, scroller }) {
    this.#frame = frame;
    this.#image = image;
    this.#tint = tint;
    this.#spot = spot;
    this.#scroller = scroller;
    matchMedia('(prefers-color-scheme: dark)').addEventListener('change', () => this.#drawTint());
  }

  /** Shows nothing, in the shape of the last image. */
  clear() {
    this.#image.width = this.#image.width;
    this.#tint.width = this.#tint.width;
    this.#marks = null;
    this.#damages = [];
    this.#spot.hidden = true;
  }

  /** Begins an image of which each step-th pixel is shown. */
  begin(header, step) {
    this.#header = header;
    this.#image.width = Math.ceil(header.width / step);
    this.#image.height = Math.ceil(header.height / step);
    this.#tint.width = header.mcusAcross;
    this.#tint.height = header.mcusDown;
    // The last MCUs reach beyond the image.
    this.#tint.style.width = `${(100 * header.mcusAcross * header.mcuWidth) / header.width}%`;
    this.#tint.style.height = `${(100 * header.mcusDown * header.mcuHeight) / header.height}%`;
    this.#frame.classList.add('is-known');
    this.#scroller.scrollTo(0, 0);
    this.#fit();
  }

  /** Draws lines of the canvas starting at `row`. */
  draw({ row, rows, pixels }) {
    if (rows > 0) this.#image.getContext('2d').putImageData(new ImageData(pixels, this.#image.width, rows), 0, row);
  }

  /** Shows the marks of the intervals, and the damage. */
  mark(marks, damages) {
    this.#marks = marks;
    this.#damages = damages;
    this.#drawTint();
  }

  /** Tints the damaged MCUs ("damage"), each that has been checked ("all"), or "none". */
  set mode(mode) {
    this.#mode = mode;
    this.#drawTint();
  }

  get isActual() {
    return this.#isActual;
  }

  set isActual(isActual) {
    this.#isActual = isActual;
    this.#fit();
  }

  /** Outlines the lines of a damaged part, and scrolls to them. */
  outline({ firstLine, lastLine }) {
    const { height } = this.#header;
    this.#spot.hidden = false;
    this.#spot.style.top = `${(100 * firstLine) / height}%`;
    this.#spot.style.height = `${(100 * (lastLine + 1 - firstLine)) / height}%`;
    const top = (firstLine / height) * this.#frame.clientHeight;
    this.#scroller.scrollTo({ top: top - this.#scroller.clientHeight / 3 });
    this.#spot.scrollIntoView({ block: 'nearest' });
  }

  #fit() {
    if (this.#header === null) return;
    const { width, height } = this.#header;
    const isSmall = width < SMALL;
    const scale = isSmall && !this.#isActual ? Math.min(MAX_ENLARGEMENT, Math.floor(SMALL / width) + 1) : 1;
    this.#frame.style.aspectRatio = `${width} / ${height}`;
    // All of the image is seen while it arrives.
    this.#frame.style.width = this.#isActual ? `${width}px` : `min(100%, ${width * scale}px, max(200px, ${(76 * width) / height}vh))`;
    this.#frame.classList.toggle('is-small', isSmall);
  }

  #drawTint() {
    if (this.#header === null || this.#marks === null) return;
    const { mcus, mcusAcross, mcusDown } = this.#header;
    const pixels = new ImageData(mcusAcross, mcusDown);
    if (this.#mode === 'all') this.#tintSound(pixels.data);
    if (this.#mode !== 'none') this.#tintDamage(pixels.data, mcus);
    this.#tint.getContext('2d').putImageData(pixels, 0, 0);
  }

  #tintSound(pixels) {
    const [r, g, b] = colourOf('--sound');
    const { mcus, restart } = this.#header;
    const each = restart || mcus;
    for (let mcu = 0; mcu < mcus; mcu += 1) {
      if (this.#marks[Math.floor(mcu / each)] === SOUND) pixels.set([r, g, b, 96], 4 * mcu);
    }
  }

  /** What can be decoded of a damaged interval is tinted less. */
  #tintDamage(pixels, mcus) {
    const [r, g, b] = colourOf('--damaged');
    for (const { firstMcu, mcus: count, decodable } of this.#damages) {
      const end = Math.min(firstMcu + count, mcus);
      for (let mcu = firstMcu; mcu < end; mcu += 1) pixels.set([r, g, b, mcu < firstMcu + decodable ? 48 : 128], 4 * mcu);
    }
  }
}

/** The bar of the marks of all intervals. */
export class Bar {
  #canvas;
  #marks = new Uint8Array(1);

  constructor(canvas) {
    this.#canvas = canvas;
    new ResizeObserver(() => this.#draw()).observe(canvas);
    matchMedia('(prefers-color-scheme: dark)').addEventListener('change', () => this.#draw());
  }

  set marks(marks) {
    this.#marks = marks;
    const counts = [0, 0, 0];
    for (const mark of marks) counts[mark] += 1;
    const [blank, sound, damaged] = counts;
    this.#canvas.setAttribute('aria-label', `Restart intervals: ${sound} sound, ${damaged} damaged, ${blank} not here yet`);
    this.#draw();
  }

  /** A column of several intervals shows the damaged ones first, then those that are not here. */
  #draw() {
    const width = Math.round(this.#canvas.clientWidth * devicePixelRatio);
    if (width === 0) return;
    this.#canvas.width = width;
    this.#canvas.height = 1;
    const colours = ['--blank', '--sound', '--damaged'].map(colourOf);
    const pixels = new ImageData(width, 1);
    const count = this.#marks.length;
    for (let x = 0; x < width; x += 1) {
      const first = Math.floor((x * count) / width);
      const part = this.#marks.subarray(first, Math.max(first + 1, Math.floor(((x + 1) * count) / width)));
      const mark = part.includes(DAMAGED) ? DAMAGED : Math.min(...new Set(part));
      pixels.data.set([...colours[mark], 255], 4 * x);
    }
    this.#canvas.getContext('2d').putImageData(pixels, 0, 0);
  }
}

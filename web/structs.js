// The structs of jri.h, as they lie in memory. tools/build-web compares them with the header.

/** Each field's name and kind, in order. */
const STRUCTS = {
  jri_header: {
    width: 'u32',
    height: 'u32',
    kind: 'u32',
    components: 'u32',
    intervals: 'u32',
    refusal: 'u32',
    pixels: 'u64',
    detail: 'u64',
    scan_at: 'u64',
    restart: 'u32',
    mcu_width: 'u32',
    mcu_height: 'u32',
    mcus_across: 'u32',
    mcus_down: 'u32',
    mcus: 'u32',
    horizontal: 'u32[3]',
    vertical: 'u32[3]',
  },
  jri_report: {
    intervals: 'u32',
    sound: 'u32',
    damaged: 'u32',
    blank: 'u32',
    ended: 'u32',
    found: 'u32',
    due: 'u32',
    refusal: 'u32',
    at: 'u64',
    detail: 'u64',
  },
  jri_position: {
    at: 'u64',
    bit: 'u32',
    row: 'u32',
    interval: 'u32',
    mcu: 'u32',
    predictions: 'i32[3]',
    state: 'u32',
  },
  jri_rows: {
    rows: 'u32',
    lines: 'u32',
    first_line: 'u32',
    refusal: 'u32',
    detail: 'u64',
  },
  jri_damage: {
    interval: 'u32',
    first_mcu: 'u32',
    mcus: 'u32',
    decodable: 'u32',
    first_line: 'u32',
    last_line: 'u32',
    start: 'u64',
    end: 'u64',
  },
  jri_damage_list: {
    count: 'u32',
    next: 'u32',
    next_at: 'u64',
    refusal: 'u32',
    detail: 'u64',
  },
  jri_break: {
    at: 'u64',
    code: 'u8',
    due: 'u8',
    skipped: 'u32',
  },
  jri_resynced: {
    ended: 'u32',
    found: 'u32',
    due: 'u32',
    refusal: 'u32',
    size: 'u64',
    breaks: 'u64',
    at: 'u64',
    detail: 'u64',
  },
  jri_choice: {
    copy: 'u32',
    mark: 'u32',
    decodable: 'u32',
    differs: 'u32',
  },
  jri_mended: {
    intervals: 'u32',
    damaged: 'u32',
    copy: 'u32',
    refusal: 'u32',
    size: 'u64',
    detail: 'u64',
  },
};

/** The size of each kind, and how a DataView reads and writes it. A 64-bit number must be a safe integer. */
const KINDS = {
  u8: { size: 1, get: (view, at) => view.getUint8(at), set: (view, at, value) => view.setUint8(at, value) },
  u32: {
    size: 4,
    get: (view, at) => view.getUint32(at, true),
    set: (view, at, value) => view.setUint32(at, value, true),
  },
  i32: {
    size: 4,
    get: (view, at) => view.getInt32(at, true),
    set: (view, at, value) => view.setInt32(at, value, true),
  },
  u64: {
    size: 8,
    get: (view, at) => safeNumber(view.getBigUint64(at, true)),
    set: (view, at, value) => view.setBigUint64(at, BigInt(value), true),
  },
};

function safeNumber(value) {
  if (value > BigInt(Number.MAX_SAFE_INTEGER)) throw new RangeError(`${value} is too large for a number`);
  return Number(value);
}

/** `scan_at` is `scanAt` in JavaScript. */
const inCamelCase = (name) => name.replace(/_([a-z])/g, (_, letter) => letter.toUpperCase());

function layOut(fields) {
  const placed = [];
  let end = 0;
  let alignment = 1;
  for (const [name, form] of Object.entries(fields)) {
    const [, kind, count] = /^(\w+?)(?:\[(\d+)\])?$/.exec(form);
    const { size } = KINDS[kind];
    const at = Math.ceil(end / size) * size;
    placed.push({ name: inCamelCase(name), kind: KINDS[kind], count: count ? Number(count) : null, at });
    end = at + size * Number(count ?? 1);
    alignment = Math.max(alignment, size);
  }
  return { fields: placed, size: Math.ceil(end / alignment) * alignment };
}

const LAYOUTS = new Map(Object.entries(STRUCTS).map(([name, fields]) => [name, layOut(fields)]));

/** Returns the size of a struct in bytes. */
export const sizeOf = (name) => LAYOUTS.get(name).size;

/** Returns the struct at an offset of a DataView as an object. */
export function readStruct(view, name, at) {
  const read = ({ kind, count, at: offset }) => {
    if (count === null) return kind.get(view, at + offset);
    return Array.from({ length: count }, (_, k) => kind.get(view, at + offset + k * kind.size));
  };
  return Object.fromEntries(LAYOUTS.get(name).fields.map((field) => [field.name, read(field)]));
}

/** Writes an object's fields as a struct at an offset of a DataView. */
export function writeStruct(view, name, at, values) {
  for (const { name: field, kind, count, at: offset } of LAYOUTS.get(name).fields) {
    const list = count === null ? [values[field]] : values[field];
    list.forEach((value, k) => kind.set(view, at + offset + k * kind.size, value));
  }
}

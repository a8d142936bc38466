"""A plain decoder of baseline files, sample by sample as in ITU-T T.81: the report, the exit status and the Netpbm image that
`jri` must write. It reads intervals by tools/plain_reader.py, transforms by the integer matrix of libjpeg's accurate
transform, and repeats the samples of coarser components. It shares nothing with jri, and takes only files whose header is
accepted."""

import re

import plain_reader
from plain_reader import Bits, Undecodable

ZIGZAG = sorted(range(64), key=lambda k: (k // 8 + k % 8, k // 8 if (k // 8 + k % 8) % 2 else k % 8))


class Head(plain_reader.Head):
    """Quantisers, components and the marks of the colours, too."""

    def __init__(self, data):
        self.quantisers, self.rgb, self.jfif = {}, False, False
        super().__init__(data)
        self.segments(data)

    def segments(self, data):
        at = 2
        while True:
            while data[at + 1] == 0xFF:
                at += 1
            code, size = data[at + 1], int.from_bytes(data[at + 2 : at + 4], "big")
            payload = data[at + 4 : at + 2 + size]
            at += 2 + size
            if code == 0xDB:
                self.add_quantisers(payload)
            elif code in (0xC0, 0xC1):
                self.components = [tuple(payload[6 + 3 * c : 9 + 3 * c]) for c in range(payload[5])]
            elif code == 0xE0 and payload[:5] == b"JFIF\0":
                self.jfif = True
            elif code == 0xEE and payload[:5] == b"Adobe" and len(payload) >= 12:
                self.rgb = payload[11] == 0
            elif code == 0xDA:
                return

    def add_quantisers(self, payload):
        while payload:
            wide, number = payload[0] >> 4, payload[0] & 15
            size = 128 if wide else 64
            values = payload[1 : 1 + size]
            if wide:
                values = [values[i] * 256 + values[i + 1] for i in range(0, 128, 2)]
            self.quantisers[number], payload = list(values), payload[1 + size :]

    def coefficients(self, bits, component, prediction):
        """The coefficients of the next block in zigzag order (F.2.2)."""
        size = bits.word(self.tables[self.used[component] >> 4])
        if size > 11:
            raise Undecodable
        block = [0] * 64
        block[0] = prediction + bits.value(size)
        if not -32768 <= block[0] <= 32767:
            raise Undecodable
        k = 1
        while k < 64:
            symbol = bits.word(self.tables[16 + (self.used[component] & 15)])
            run, size = symbol >> 4, symbol & 15
            if symbol == 0:
                break
            if symbol == 0xF0:
                k += 16
            elif 1 <= size <= 10:
                value = bits.value(size)
                k += run + 1
                if k > 64:
                    raise Undecodable
                block[k - 1] = value
            else:
                raise Undecodable
            if k > 64:
                raise Undecodable
        return block


def one_pass(d, shift):
    """Eight numbers through the accurate integer transform of libjpeg, rounded after a shift."""
    z1 = (d[2] + d[6]) * 4433
    t2, t3 = z1 - d[6] * 15137, z1 + d[2] * 6270
    t0, t1 = (d[0] + d[4]) << 13, (d[0] - d[4]) << 13
    even = [t0 + t3, t1 + t2, t1 - t2, t0 - t3]
    a, b, c, e = d[7], d[5], d[3], d[1]
    z1, z2, z3, z4 = -7373 * (a + e), -20995 * (b + c), a + c, b + e
    z5 = (z3 + z4) * 9633
    z3, z4 = z3 * -16069 + z5, z4 * -3196 + z5
    odd = [e * 12299 + z1 + z4, c * 25172 + z2 + z3, b * 16819 + z2 + z4, a * 2446 + z1 + z3]
    half = 1 << (shift - 1)
    front = [(even[i] + odd[i] + half) >> shift for i in range(4)]
    return front + [(even[3 - i] - odd[3 - i] + half) >> shift for i in range(4)]


def transform(block, quantiser):
    """The 64 samples of a block, line by line (A.3.3)."""
    natural = [0] * 64
    for k in range(64):
        natural[ZIGZAG[k]] = block[k] * quantiser[k]
    columns = [one_pass(natural[x::8], 11) for x in range(8)]
    lines = [one_pass([columns[x][y] for x in range(8)], 18) for y in range(8)]
    return [[max(0, min(255, s + 128)) for s in line] for line in lines]


class Planes:
    """The samples of each component, grey or black before they are decoded."""

    def __init__(self, head):
        self.head = head
        self.factors = [(c[1] >> 4, c[1] & 15) for c in head.components]
        if len(self.factors) == 1:
            self.factors = [(1, 1)]
        self.wide, self.tall = max(h for h, _ in self.factors), max(v for _, v in self.factors)
        self.down = -(-head.mcus // head.across)
        self.planes = [[[128] * (head.across * h * 8) for _ in range(self.down * v * 8)] for h, v in self.factors]

    def put_mcu(self, mcu, blocks):
        blocks = iter(blocks)
        for plane, (h, v) in zip(self.planes, self.factors):
            for y in range(v):
                for x in range(h):
                    top, left = (mcu // self.head.across * v + y) * 8, (mcu % self.head.across * h + x) * 8
                    for i, line in enumerate(next(blocks)):
                        plane[top + i][left : left + 8] = line

    def blank_mcu(self, mcu):
        for c, (plane, (h, v)) in enumerate(zip(self.planes, self.factors)):
            top, left = mcu // self.head.across * v * 8, mcu % self.head.across * h * 8
            value = 128 if c > 0 and not self.head.is_rgb else 0
            for y in range(top, top + v * 8):
                plane[y][left : left + h * 8] = [value] * (h * 8)

    def sample(self, c, x, y):
        h, v = self.factors[c]
        return self.planes[c][y * v // self.tall][x * h // self.wide]

    def pixel(self, x, y):
        samples = [self.sample(c, x, y) for c in range(len(self.planes))]
        if len(samples) == 1 or self.head.is_rgb:
            return bytes(samples)
        y_, cb, cr = samples[0], samples[1] - 128, samples[2] - 128
        red = y_ + ((91881 * cr + 32768) >> 16)
        green = y_ + ((-22554 * cb - 46802 * cr + 32768) >> 16)
        blue = y_ + ((116130 * cb + 32768) >> 16)
        return bytes(max(0, min(255, s)) for s in (red, green, blue))

    def text(self):
        magic = "P5" if len(self.planes) == 1 else "P6"
        lines, cached = [], {}
        for y in range(self.head.height):
            key = tuple(tuple(plane[y * v // self.tall]) for plane, (_, v) in zip(self.planes, self.factors))
            if key not in cached:
                cached[key] = b"".join(self.pixel(x, y) for x in range(self.head.width))
            lines.append(cached[key])
        return f"{magic}\n{self.head.width} {self.head.height}\n255\n".encode() + b"".join(lines)


def decode_interval(head, planes, data, first, mcus):
    """Puts the MCUs of an interval as far as they can be decoded; whether they are a decoding of it."""
    bits, predictions = Bits(data), [0] * 3
    for mcu in range(first, first + mcus):
        blocks = []
        try:
            for component in head.order:
                block = head.coefficients(bits, component, predictions[component])
                predictions[component] = block[0]
                blocks.append(transform(block, head.quantisers[head.components[component][2]]))
        except Undecodable:
            return False
        planes.put_mcu(mcu, blocks)
    return len(bits.text) - bits.at < 8


def decode(data, first=None):
    """The report's lines, the exit status and the Netpbm text of a file, of which all intervals are decoded, or the first."""
    head = Head(data)
    head.is_rgb = len(head.components) == 3 and head.rgb and not head.jfif
    each = head.restart or head.mcus
    intervals = -(-head.mcus // each)
    spans, ended = plain_reader.segments(data, head.at, intervals)
    planes, counts = Planes(head), [0, 0, 0]
    for number in range(intervals):
        mcus = min(each, head.mcus - number * each)
        if first is not None and number >= first:
            counts[2] += 1
            for mcu in range(number * each, number * each + mcus):
                planes.blank_mcu(mcu)
            continue
        start, end = spans[number] if number < len(spans) else (0, 0)
        plain = re.sub(rb"\xff+\x00", b"\xff", data[start:end])
        counts[0 if decode_interval(head, planes, plain, number * each, mcus) else 1] += 1
    report = f"intervals {intervals} sound {counts[0]} damaged {counts[1]} blank {counts[2]}"
    return [report, f"scan ended at {ended or 'EOI'}"], 3 if counts[1] else 0, planes.text()

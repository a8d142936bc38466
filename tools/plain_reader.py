"""A plain reader of baseline scans, bit by bit as in ITU-T T.81: which restart intervals have a decoding, how far the others
can be decoded, where their bytes are, which values no 8-bit image has, and what follows EOI. For comparisons: it shares
nothing with jri, and takes only files whose header is accepted."""

import re


class Undecodable(Exception):
    """No word or no coefficient begins the bits."""


class Bits:
    """The bits of an interval's bytes."""

    def __init__(self, data):
        self.text = "".join(format(byte, "08b") for byte in data)
        self.at = 0

    def take(self, count):
        if self.at + count > len(self.text):
            raise Undecodable
        self.at += count
        return self.text[self.at - count : self.at]

    def word(self, table):
        """The symbol of the word that comes next (Annex C)."""
        for length in range(1, 17):
            symbol = table.get(self.text[self.at : self.at + length])
            if symbol is not None and self.at + length <= len(self.text):
                self.at += length
                return symbol
        raise Undecodable

    def value(self, size):
        """The given number of additional bits as a signed value (F.2.2.1)."""
        if size == 0:
            return 0
        bits = self.take(size)
        return int(bits, 2) if bits[0] == "1" else int(bits, 2) - 2**size + 1


def frame_size(data):
    """The width, the height and the number of components in the first frame header of a file, of SOF0 to SOF15; zeros if no whole one
    comes before the scan, and after nothing but whole segments of tables, restart intervals, APPn and COM."""
    at = 2 if data[:2] == b"\xff\xd8" else len(data)
    while found := re.match(rb"\xff+([^\xff])(..)", data[at:], re.S):
        code, size = found[1][0], int.from_bytes(found[2], "big")
        payload = data[at + found.end() :][: max(size - 2, 0)]
        if size < 2 or len(payload) < size - 2:
            break
        if code in range(0xC0, 0xD0) and code not in (0xC4, 0xC8, 0xCC):
            if len(payload) < 6:
                break
            return int.from_bytes(payload[3:5], "big"), int.from_bytes(payload[1:3], "big"), payload[5]
        if code not in (0xC4, 0xDB, 0xDD, 0xFE, *range(0xE0, 0xF0)):
            break
        at += found.end() + size - 2
    return 0, 0, 0


class Head:
    """What the markers before the scan say."""

    def __init__(self, data):
        self.restart, self.tables, self.steps, self.at = 0, {}, {}, 2
        while True:
            while data[self.at + 1] == 0xFF:
                self.at += 1
            code, size = data[self.at + 1], int.from_bytes(data[self.at + 2 : self.at + 4], "big")
            payload = data[self.at + 4 : self.at + 2 + size]
            self.at += 2 + size
            if code == 0xC4:
                self.add_tables(payload)
            elif code == 0xDB:
                self.add_steps(payload)
            elif code in (0xC0, 0xC1):
                self.frame(payload)
            elif code == 0xDD:
                self.restart = int.from_bytes(payload, "big")
            elif code == 0xDA:
                self.used = [payload[2 + 2 * i] for i in range(payload[0])]
                return

    def add_tables(self, payload):
        """Code tables, as the words of symbols (Annex C)."""
        while payload:
            kind, counts = payload[0], payload[1:17]
            symbols, words, word = payload[17 : 17 + sum(counts)], {}, 0
            for length, count in enumerate(counts, 1):
                for _ in range(count):
                    words[format(word, f"0{length}b")] = symbols[len(words)]
                    word += 1
                word *= 2
            self.tables[kind] = words
            payload = payload[17 + sum(counts) :]

    def add_steps(self, payload):
        """Quantisation tables, in zigzag order (B.2.4.1)."""
        while payload:
            width, number = 1 + (payload[0] >> 4), payload[0] & 15
            self.steps[number] = [int.from_bytes(payload[1 + k * width : 1 + (k + 1) * width], "big") for k in range(64)]
            payload = payload[1 + 64 * width :]

    def frame(self, payload):
        """Sizes, and the component of each data unit of an MCU (A.2.3)."""
        self.height, self.width = int.from_bytes(payload[1:3], "big"), int.from_bytes(payload[3:5], "big")
        factors = [(payload[7 + 3 * c] >> 4, payload[7 + 3 * c] & 15) for c in range(payload[5])]
        if len(factors) == 1:
            factors = [(1, 1)]
        self.factors = factors
        self.wide, self.high = (8 * max(numbers) for numbers in zip(*factors))
        self.across, self.down = -(-self.width // self.wide), -(-self.height // self.high)
        self.mcus = self.across * self.down
        self.step_numbers = [payload[8 + 3 * c] for c in range(payload[5])]
        self.order = [c for c, (h, v) in enumerate(factors) for _ in range(h * v)]

    def read_block(self, bits, component, prediction):
        """The DC value of the next block (F.2.2), and its AC values by their zigzag indexes."""
        size = bits.word(self.tables[self.used[component] >> 4])
        if size > 11:
            raise Undecodable
        values = {0: prediction + bits.value(size)}
        if not -32768 <= values[0] <= 32767:
            raise Undecodable
        place = 1
        while place < 64:
            symbol = bits.word(self.tables[16 + (self.used[component] & 15)])
            run, size = symbol >> 4, symbol & 15
            if symbol == 0:
                break
            if symbol == 0xF0:
                place += 16
            elif 1 <= size <= 10:
                values[place + run] = bits.value(size)
                place += run + 1
            else:
                raise Undecodable
            if place > 64:
                raise Undecodable
        return values

    def is_doubtful(self, component, values):
        """Whether a value has a product with its step that exceeds 1024, the norm of 64 samples of -128, by more than the step."""
        steps = self.steps[self.step_numbers[component]]
        return any(abs(value) * steps[k] > 1024 + steps[k] for k, value in values.items())

    def decodable(self, data, mcus):
        """How many whole MCUs can be decoded, whether they are a decoding of the interval, and the bit after them; and the first
        doubtful one, as its number, its first bit and the bit after it."""
        bits, predictions, doubtful = Bits(data), [0] * 3, None
        for done in range(mcus):
            start, doubts = bits.at, False
            try:
                for component in self.order:
                    values = self.read_block(bits, component, predictions[component])
                    predictions[component] = values[0]
                    doubts = doubts or self.is_doubtful(component, values)
            except Undecodable:
                return done, False, start, doubtful
            if doubts and not doubtful:
                doubtful = done, start, bits.at
        return mcus, len(bits.text) - bits.at < 8, bits.at, doubtful


MARKER = re.compile(rb"(?<!\xff)\xff+[^\x00\xff]", re.DOTALL)


def segments(data, start, intervals):
    """Where each interval's bytes start and end, for as many as have some; and where the scan ended, if not at EOI."""
    spans = []
    while True:
        found = MARKER.search(data, start)
        if not found:
            tail = re.search(rb"\xff*\Z", data[start:])
            return spans + [(start, start + tail.start())], "the end of the file"
        spans.append((start, found.start()))
        code, due = data[found.end() - 1], (len(spans) - 1) % 8
        if code == 0xD9:
            return spans, ""
        if not 0xD0 <= code <= 0xD7:
            return spans, f"marker {code:02X}, byte {found.start()}"
        if len(spans) == intervals:
            return spans, f"a restart marker past the last interval, byte {found.start()}"
        if code != 0xD0 + due:
            return spans, f"RST{code - 0xD0} where RST{due} was due, byte {found.start()}"
        start = found.end()


def offsets(data, start, end):
    """Where each byte of a segment's data begins, and where they end."""
    return [start + found.start() for found in re.finditer(rb"\xff+\x00|[^\xff]", data[start:end], re.DOTALL)] + [end]


def check(data):
    """How many intervals there are; of each damaged one its number, first and last MCU, first and last line, first and
    last byte, how many MCUs can be decoded and up to which byte, and the first line of the next MCU, or of the last one; of each with a doubtful MCU its number, the MCU and its first and
    last byte; and where the scan ended, if not at EOI."""
    head = Head(data)
    each = head.restart or head.mcus
    intervals = -(-head.mcus // each)
    spans, ended = segments(data, head.at, intervals)
    damaged, doubts = [], []
    for number in range(intervals):
        start, end = spans[number] if number < len(spans) else (0, 0)
        mcus = min(each, head.mcus - number * each)
        done, is_sound, bit, doubtful = head.decodable(re.sub(rb"\xff+\x00", b"\xff", data[start:end]), mcus)
        at = offsets(data, start, end)
        if not is_sound:
            first, last = number * each, number * each + mcus - 1
            lines = first // head.across * head.high, min((last // head.across + 1) * head.high, head.height) - 1
            top = (first + min(done, mcus - 1)) // head.across * head.high
            damaged.append((number, (first, last), lines, (start, end - 1) if start < end else None, done, mcus, at[bit // 8], top))
        if doubtful:
            mcu, first, end = doubtful
            doubts.append((number, number * each + mcu, at[first // 8], at[(end + 7) // 8] - 1))
    return intervals, damaged, doubts, ended


def after_end(data):
    """The words on bytes that follow the EOI that ended the scan, if some do."""
    head = Head(data)
    spans, ended = segments(data, head.at, -(-head.mcus // (head.restart or head.mcus)))
    if ended:
        return f", scan ended at {ended}"
    end = MARKER.search(data, spans[-1][1]).end()
    count = len(data) - end
    if count < 2:
        return f", 1 byte after the end of the image, at byte {end}" if count else ""
    return f", {count} bytes after the end of the image, starting at byte {end}"


def lines(data):
    """The lines that a check with a map has of a file."""
    intervals, damaged, doubts, _ = check(data)
    many = "1 interval" if intervals == 1 else f"{intervals} intervals"
    end = after_end(data)
    printed = [(run[0][0], 0, interval_line(run)) for run in runs(damaged)]
    printed += [(number, 1, f"interval {number}, MCU {mcu}, bytes {first} to {last}, doubtful: no 8-bit image has such a value") for number, mcu, first, last in doubts]
    those = [line for _, _, line in sorted(printed)]
    if not damaged:
        return [f"sound, {many}{end}", *those]
    top, bottom = damaged[0][7], max(d[2][1] for d in damaged)
    return [f"damaged, {len(damaged)} of {many}, lines {top} to {bottom}{end}", *those]


def runs(damaged):
    """Damaged intervals, consecutive ones without bytes together."""
    together = []
    for it in damaged:
        if together and not it[3] and not together[-1][-1][3] and together[-1][-1][0] + 1 == it[0]:
            together[-1].append(it)
        else:
            together.append([it])
    return together


def interval_line(run):
    """The line of a damaged interval, or of consecutive ones without bytes."""
    number, mcus, touched, span, done, count, to = run[0][:7]
    if len(run) > 1:
        last, last_mcus, last_touched = run[-1][:3]
        return f"intervals {number} to {last}, MCUs {mcus[0]} to {last_mcus[1]}, lines {touched[0]} to {last_touched[1]}, no bytes"
    place = "no bytes" if span is None else f"bytes {span[0]} to {span[1]}"
    up_to = "" if span is None else f" up to byte {to}"
    return (
        f"interval {number}, MCUs {mcus[0]} to {mcus[1]}, lines {touched[0]} to {touched[1]}, {place}, "
        f"{done} of {count} MCUs decodable{up_to}"
    )

"""The files that tools/check-web gives to each browser: the table of cases, hostile ones, photos and copies."""

import re

import cases
import pictures
import small_files

SIZES = [(227, 149, ["-sample", "2x2", "-restart", "1"]), (64, 48, ["-grayscale", "-restart", "2B"]), (61, 37, ["-rgb"])]
SIZES += [(130, 70, ["-sample", "2x1", "-restart", "3B"]), (48, 33, ["-sample", "1x1"]), (97, 64, ["-sample", "4x1"])]
PHOTO = (4000, 3000, ["-quality", "90", "-sample", "2x2"])
PAGE_PHOTO = (1200, 900, ["-quality", "88", "-sample", "2x2", "-restart", "1"])
SECTOR = 512


def table_rows():
    """Yields the rows of the table that stand for one file which a check reads whole."""
    for row in cases.rows():
        if "first" not in row.options and "cut" not in row.options and row.check_lines():
            yield row


def table_files():
    """Yields each file of the table of cases, cuts included."""
    for row in cases.rows():
        yield from row.files()


def compressed():
    """Returns files made by cjpeg, with and without restart markers."""
    made = []
    for number, (width, height, words) in enumerate(SIZES):
        picture = pictures.netpbm(width, height, 1 if "-grayscale" in words else 3, number + 1)
        made.append(pictures.compress(picture, ["-quality", "75", *words]))
    return made


def photo(shape):
    width, height, words = shape
    return pictures.compress(pictures.netpbm(width, height, 3, 7), words)


def progressive():
    return pictures.compress(pictures.netpbm(320, 200, 3, 3), ["-progressive"])


def changed(data, random):
    """Returns a file with a byte, a bit, a length or a marker changed, bytes removed, or bytes repeated."""
    data, at = bytearray(data), random.next() * 65536 + random.next()
    at %= max(len(data), 1)
    kind = random.next() % 7
    if not data:
        return b""
    if kind == 0:
        data[at] = random.next() % 256
    elif kind == 1:
        data[at] ^= 1 << random.next() % 8
    elif kind == 2:
        data[at : at + 2] = bytes([0xFF, 0xC0 + random.next() % 64])
    elif kind == 3:
        del data[at : at + 1 + random.next() % 40]
    elif kind == 4:
        data[at:at] = data[at : at + 1 + random.next() % 40]
    elif kind == 5:
        data[at : at + 2] = bytes([random.next() % 4, random.next() % 256])
    else:
        del data[at:]
    return bytes(data)


def hostile(count, seed):
    """Returns files that are changed in one to four ways, and some that claim much."""
    random = pictures.Random(seed)
    bases = [*(it.data for it in small_files.FILES), *compressed()]
    found = [b"", b"\xff", b"\xff\xd8", b"no picture", small_files.claims(0xFFFF, 0xFFFF, b"")]
    found += [small_files.claims(0x4000, 0x4000, cases.file("I")), small_files.claims(0x3FFF, 0x3FFF, b"")]
    while len(found) < count:
        data = bases[random.next() % len(bases)]
        for _ in range(1 + random.next() % 4):
            data = changed(data, random)
        found.append(data)
    return found


def spoilt(data, sectors, seed):
    """Returns a copy of which some sectors hold noise."""
    random, data = pictures.Random(seed), bytearray(data)
    for sector in sectors:
        start = sector * SECTOR
        size = len(data[start : start + SECTOR])
        data[start : start + SECTOR] = bytes(random.next() % 256 for _ in range(size))
    return bytes(data)


def overwritten(data, intervals):
    """Returns a file with zeros in the second third of some restart intervals, whose markers stay."""
    data, starts = bytearray(data), [it.end() for it in re.finditer(b"\xff[\xd0-\xd7]", data)]
    for interval in intervals:
        start, end = starts[interval - 1 : interval + 1]
        third = (end - start) // 3
        data[start + third : start + 2 * third] = bytes(third)
    return bytes(data)


def copies():
    """Returns lists of copies of one file, and of files that are not."""
    sound = photo((640, 480, ["-quality", "85", "-restart", "1"]))
    last = len(sound) // SECTOR - 2
    one, two = spoilt(sound, (9, 30), 1), spoilt(sound, (20, last), 2)
    three = sound[: len(sound) // 2]
    other = photo((640, 480, ["-quality", "50", "-restart", "1"]))
    return sound, [[one, two], [one, two, three], [one], [three, one], [sound, one], [one, one], [one, other], [one, b"no picture"], [sound] * 64]

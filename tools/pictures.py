"""Images to compress for comparisons: photo-like noise over gradients and edges, the same on every machine."""

import struct
import subprocess


class Random:
    """A small generator of its own, so that every Python gives the same pictures."""

    def __init__(self, seed):
        self.state = seed * 2654435761 % 2**32 or 1

    def next(self):
        self.state = (self.state * 1664525 + 1013904223) % 2**32
        return self.state >> 16


def rows(width, height, channels, seed):
    """The rows of a picture: smooth waves, a few hard edges, and some noise."""
    random = Random(seed)
    noise = bytes(random.next() % 23 for _ in range(4096))
    waves = [[random.next() % 61 + 9 for _ in range(2)] for _ in range(channels)]
    for y in range(height):
        row = bytearray(width * channels)
        for x in range(width):
            edge = 70 if (x * 7 // (width + 1) + y * 5 // (height + 1)) % 2 else 0
            for c in range(channels):
                across, down = waves[c]
                value = abs((x * 4 // 3 + 31 * c) % (4 * across) - 2 * across) + abs((y + 17 * c) % (3 * down) - down)
                row[x * channels + c] = min(255, value + edge + noise[(x * 3 + y * 57 + c * 101) % 4096])
        yield bytes(row)


def netpbm(width, height, channels, seed):
    """A whole picture as PGM or PPM; one of more than a megapixel repeats a tile."""
    magic = b"P5" if channels == 1 else b"P6"
    header = magic + b"\n%d %d\n255\n" % (width, height)
    if width * height <= 1 << 20:
        return header + b"".join(rows(width, height, channels, seed))
    tile = list(rows(997, 743, channels, seed))
    wide = [(row * (width // 997 + 1))[: width * channels] for row in tile]
    return header + b"".join(wide[y % 743] for y in range(height))


def compress(picture, words):
    """The JPEG file that cjpeg makes of a picture."""
    return subprocess.run(["cjpeg", *words], input=picture, stdout=subprocess.PIPE, check=True).stdout


def markers(data):
    """The number of restart markers of a file, and its size in pixels."""
    count = sum(1 for i in range(len(data) - 1) if data[i] == 0xFF and 0xD0 <= data[i + 1] <= 0xD7)
    at = data.find(b"\xff\xc0")
    height, width = struct.unpack(">HH", data[at + 5 : at + 9])
    return count, width, height


def exif(order, entries, rest=b""):
    """An Exif segment whose directory has entries of a tag, a type, a count and a value, `little` or `big` end first."""

    def number(value, size):
        return value.to_bytes(size, order)

    fields = b""
    for tag, kind, count, value in entries:
        value = value if isinstance(value, bytes) else number(value, 2 if kind == 3 else 4)
        fields += number(tag, 2) + number(kind, 2) + number(count, 4) + value.ljust(4, b"\0")
    payload = b"Exif\0\0" + (b"II" if order == "little" else b"MM") + number(42, 2) + number(8, 4)
    payload += number(len(entries), 2) + fields + bytes(4) + rest
    return b"\xff\xe1" + (len(payload) + 2).to_bytes(2, "big") + payload

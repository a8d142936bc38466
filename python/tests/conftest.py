import os
import subprocess
import sys

import numpy
import pytest

TOOLS = os.path.join(os.path.dirname(os.path.abspath(__file__)), "..", "..", "tools")
sys.path.insert(0, TOOLS)
sys.dont_write_bytecode = True
import pictures

SIZES = [(1, 1), (17, 9), (227, 149)]
KINDS = [["-grayscale"], ["-rgb"], ["-sample", "1x1"], ["-sample", "2x1"], ["-sample", "2x2"]]


def made(width, height, words, seed=1):
    """The JPEG file that cjpeg makes of a picture of pictures.py."""
    channels = 1 if words[0] == "-grayscale" else 3
    return pictures.compress(pictures.netpbm(width, height, channels, seed), ["-quality", "85", *words])


def by_djpeg(data):
    """The pixels that djpeg gives."""
    command = ["djpeg", "-dct", "int", "-nosmooth", "-pnm"]
    netpbm = subprocess.run(command, input=data, stdout=subprocess.PIPE, check=True).stdout
    magic, size, _, samples = netpbm.split(b"\n", 3)
    width, height = map(int, size.split())
    shape = (height, width) if magic == b"P5" else (height, width, 3)
    return numpy.frombuffer(samples, numpy.uint8).reshape(shape)


def laid(pixels, layout):
    """Returns djpeg's pixels in a layout, by numpy."""
    colours = pixels if pixels.ndim == 3 else numpy.repeat(pixels[:, :, None], 3, axis=2)
    turned = colours[:, :, ::-1] if layout.startswith("bgr") else colours
    if len(layout) == 3:
        return turned
    return numpy.concatenate([turned, numpy.full(turned.shape[:2] + (1,), 255, numpy.uint8)], axis=2)


@pytest.fixture(params=[(size, kind) for size in SIZES for kind in KINDS], ids=lambda it: f"{it[0][0]}x{it[0][1]}{''.join(it[1])}")
def file(request):
    (width, height), kind = request.param
    return made(width, height, [*kind, "-restart", "3B"])


@pytest.fixture
def photo():
    """A picture of three components and 19 restart intervals."""
    return made(227, 149, ["-sample", "2x2", "-restart", "8B"])

"""Times of the module, of other decoders of the same files if they are installed, and of what threads are worth. All but the last
are CPU times of one thread, minima of interleaved runs."""

import concurrent.futures
import ctypes
import ctypes.util
import functools
import io
import sys
import time

import numpy
from conftest import made

import jri

CALLS, THREADS = 8, 4


def by_pillow(data):
    from PIL import Image

    return numpy.asarray(Image.open(io.BytesIO(data)))


def by_opencv(data):
    import cv2

    cv2.setNumThreads(1)
    return cv2.imdecode(numpy.frombuffer(data, numpy.uint8), cv2.IMREAD_COLOR)


@functools.cache
def turbojpeg():
    """Returns the library and a decoder of it."""
    name = ctypes.util.find_library("turbojpeg")
    if not name:
        raise ImportError
    library = ctypes.CDLL(name)
    library.tjInitDecompress.restype = ctypes.c_void_p
    return library, ctypes.c_void_p(library.tjInitDecompress())


def by_turbojpeg(data):
    """Decodes as PyTurboJPEG does."""
    library, handle = turbojpeg()
    size = ctypes.c_ulong(len(data))
    width, height = ctypes.c_int(), ctypes.c_int()
    library.tjDecompressHeader(handle, data, size, ctypes.byref(width), ctypes.byref(height))
    pixels = numpy.empty((height.value, width.value, 3), numpy.uint8)
    library.tjDecompress2(handle, data, size, pixels.ctypes.data_as(ctypes.c_void_p), width, 0, height, 0, 0)
    return pixels


def fed(data, size):
    with jri.Stream() as stream:
        for at in range(0, len(data), size):
            for _ in stream.feed(data[at : at + size]):
                pass
        for _ in stream.close():
            pass


def seconds(call, clock):
    start = clock()
    call()
    return clock() - start


def compare(title, ways, runs, calls=1):
    """Prints the minimum of each way's times, in milliseconds a call."""
    least = {}
    for _ in range(runs):
        for name, way in list(ways.items()):
            try:
                taken = seconds(lambda: [way() for _ in range(calls)], time.process_time)
            except ImportError:
                del ways[name]
                continue
            least[name] = min(least.get(name, sys.float_info.max), taken)
    print(f"{title}: " + ", ".join(f"{name} {taken * 1000 / calls:.4g} ms" for name, taken in least.items()), flush=True)


def decoders(data):
    """The ways to decode a file into an array."""
    decode = {"jri": jri.decode, "TurboJPEG": by_turbojpeg, "OpenCV": by_opencv, "Pillow": by_pillow}
    return {name: lambda way=way: way(data) for name, way in decode.items()}


def main():
    photo = made(4000, 3000, ["-sample", "2x2"])
    compare("12 megapixels", decoders(photo), 9)
    compare("1 megapixel", decoders(made(1000, 1000, ["-sample", "2x2"])), 9, 10)
    compare("8 kilopixels", decoders(made(100, 80, ["-sample", "2x2"])), 9, 100)
    ways = {
        "feed by 512 bytes": lambda: fed(photo, 512),
        "feed by 64 KB": lambda: fed(photo, 65536),
        "lines(data, 16)": lambda: list(jri.lines(photo, 16)),
    }
    compare("12 megapixels in parts", ways, 9)
    large = made(13400, 13400, ["-sample", "2x2"])
    places = jri.index(large, rows=16)
    ways = {
        "index": lambda: jri.index(large, rows=16),
        "256 lines from it": lambda: places.lines(6656, 256),
        "decode": lambda: jri.decode(large, max_pixels=2**28),
    }
    compare(f"180 megapixels, {len(large) / 1e6:.0f} MB", ways, 3)
    alone = min(seconds(lambda: [jri.decode(photo) for _ in range(CALLS)], time.perf_counter) for _ in range(3))
    with concurrent.futures.ThreadPoolExecutor(THREADS) as pool:
        shared = min(seconds(lambda: list(pool.map(jri.decode, [photo] * CALLS)), time.perf_counter) for _ in range(3))
    print(f"{THREADS} threads are worth {alone / shared:.2f} of one")


main()

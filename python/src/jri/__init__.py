"""Baseline JPEG files decoded into numpy arrays by libjri.

    pixels = jri.decode("photo.jpg")
    for first, part in jri.lines(data, 256): ...
    stream = jri.Stream()                    # for first, pixels in stream.feed(data): ...
    tile = jri.index(data).lines(4096, 256)
    mended = jri.mend(["one.jpg", "two.jpg"])

Each call releases the interpreter's lock while libjri works, so threads use all processors.

A source that can be written (a bytearray, a numpy array, a writable memoryview or mmap) is copied before libjri reads
it. What a read-only memoryview or mmap leads to must not change while a call, an iterator or an index uses it. An open
file is read from where it is, and left there if it can be sought.
"""

from __future__ import annotations

import collections
import mmap
import os
from dataclasses import dataclass
from typing import (
    TYPE_CHECKING,
    Any,
    BinaryIO,
    Deque,
    Dict,
    Iterable,
    Iterator,
    List,
    Literal,
    NamedTuple,
    NoReturn,
    Optional,
    Tuple,
    Union,
)

import numpy

from ._library import (
    AS_IS,
    BUFFER_TOO_SMALL,
    CALLS,
    COMPLETE,
    DAMAGED,
    LAYOUTS,
    NO_LINES,
    NO_MEMORY,
    OK,
    REFUSED,
    RESYNC,
    SOUND,
    TOO_LONG,
)
from ._loaded import ffi, library
from .refusals import refusal_text, unsupported_text

if TYPE_CHECKING:
    import concurrent.futures

__version__ = "0.1.0"

__all__ = [
    "MAX_PIXELS",
    "Break",
    "Damage",
    "DamagedError",
    "Health",
    "Index",
    "Measure",
    "Mended",
    "Picture",
    "RefusedError",
    "Report",
    "Resynced",
    "Stream",
    "UnsupportedError",
    "check",
    "check_many",
    "damages",
    "decode",
    "index",
    "lines",
    "load_index",
    "measure",
    "mend",
    "read",
    "resync",
    "version",
]

# As numpy.typing.NDArray, whose import takes 20 ms.
Pixels = numpy.ndarray[Any, numpy.dtype[numpy.uint8]]
Path = Union[str, "os.PathLike[str]"]
Source = Union[bytes, bytearray, memoryview, mmap.mmap, numpy.ndarray[Any, numpy.dtype[Any]], Path, BinaryIO]
Verdict = Literal["sound", "damaged", "refused", "unsupported"]
Layout = Literal["rgb", "bgr", "rgbx", "bgrx"]
Ended = Literal["EOI", "marker", "out of step", "extra restart", "end of file"]

#: The most pixels that are decoded where nothing else is said: a head of 150 bytes may claim 268,435,456.
MAX_PIXELS = 1 << 27

#: The refusal of a file that is too long.
_TOO_LONG = 18

#: What ended the scan, by the number in `jri_report`.
_ENDS: Dict[int, Ended] = {1: "EOI", 2: "marker", 3: "out of step", 4: "extra restart", 5: "end of file"}


class RefusedError(ValueError):
    """A file that jri does not decode: `number`, 1 to 18, and `detail` say why, as in jri.h.

    `filename` is its name or None. `size` is the width and the height in its frame header, of whatever kind the frame is, or
    None if there is none before the scan.
    """

    def __init__(
        self, number: int, detail: int, filename: Optional[str] = None, size: Optional[Tuple[int, int]] = None
    ) -> None:
        super().__init__(_with_name(filename, refusal_text(number, detail)))
        self.number, self.detail, self.filename, self.size = number, detail, filename, size

    def __reduce__(self) -> Tuple[Any, ...]:
        return type(self), (self.number, self.detail, self.filename, self.size)


class UnsupportedError(RefusedError):
    """A file that is refused for what valid JPEG files may have, such as a progressive frame or four components.

    Another decoder may read it. Damage to a frame or scan header can have the same refusal.
    """


class DamagedError(ValueError):
    """A file with a damaged interval, if only sound ones are allowed.

    `picture` is what there is, `filename` its name or None.
    """

    def __init__(self, picture: "Picture", filename: Optional[str] = None) -> None:
        text = f"{picture.report.damaged} of {picture.report.intervals} intervals are damaged"
        super().__init__(_with_name(filename, text))
        self.picture, self.filename = picture, filename

    def __reduce__(self) -> Tuple[Any, ...]:
        return DamagedError, (self.picture, self.filename)


def _with_name(filename: Optional[str], text: str) -> str:
    return text if filename is None else f"{filename}: {text}"


@dataclass(frozen=True)
class Measure:
    """What a file's head says of its picture."""

    width: int
    height: int
    #: 1 or 3; a pixel has as many bytes
    components: int
    #: how many restart intervals there are
    intervals: int

    @property
    def shape(self) -> Tuple[int, ...]:
        """The shape of the picture's array."""
        return (self.height, self.width) if self.components == 1 else (self.height, self.width, self.components)


@dataclass(frozen=True)
class Report:
    """The report of a decoding."""

    intervals: int
    sound: int
    damaged: int
    ended: Ended
    #: the offset of the marker that ended the scan; None with "EOI" and "end of file"
    at: Optional[int]


@dataclass(frozen=True)
class Picture:
    """A picture, the mark of each restart interval, 1 where it is sound and 2 where it is damaged, and the report."""

    pixels: Pixels
    marks: Pixels
    report: Report


@dataclass(frozen=True)
class Health:
    """What a check comes to: no picture is made."""

    #: "unsupported" if the refusal is one that a valid file may have, as for UnsupportedError
    verdict: Verdict
    #: None where the file is refused or unsupported
    report: Optional[Report]
    #: the number of the refusal, 1 to 18, as in jri.h; None where there is none
    refusal: Optional[int]
    #: the refusal's detail: an offset or a marker's code
    detail: Optional[int]

    @property
    def text(self) -> str:
        """The verdict in words, those of a refusal with it, as jri_check has them."""
        if self.refusal is not None:
            return f"{self.verdict}: {refusal_text(self.refusal, self.detail or 0)}"
        if self.report is None or self.verdict == "sound":
            return "sound"
        return f"{self.report.damaged} of {self.report.intervals} intervals are damaged"


def version() -> int:
    """The number of the library's calls, JRI_VERSION of its jri.h."""
    return CALLS


class _File(NamedTuple):
    """The bytes of a source, for cffi."""

    data: Any
    #: the name of a source that is a path or an open file with a name
    name: Optional[str]
    #: whether the bytes cannot change between two calls
    is_fixed: bool


def __dir__() -> List[str]:
    return sorted([*__all__, "__version__"])


def _rest_of(file: Any) -> Any:
    """Returns what an open file has from where it is, and leaves it there if it can be sought."""
    is_seekable = getattr(file, "seekable", None)
    if is_seekable is None or not is_seekable():
        return file.read()
    at = file.tell()
    held = file.read()
    file.seek(at)
    return held


def _view(source: Source) -> memoryview:
    """Returns the bytes of a source, without a copy if it has them in memory."""
    held: Any = source
    if isinstance(source, (str, os.PathLike)):
        with open(source, "rb") as file:
            held = file.read()
    elif hasattr(source, "read"):
        held = _rest_of(source)
    try:
        return memoryview(held).cast("B")
    except (TypeError, ValueError, BufferError):
        raise TypeError(f"expected bytes, a path or an open file, got {type(source).__name__}") from None


def _overlap(view: memoryview, out: Optional[Pixels]) -> bool:
    """Returns whether bytes may share memory with the array that is to be filled, gaps between its lines included."""
    if not isinstance(out, numpy.ndarray) or len(view) == 0:
        return False
    return numpy.may_share_memory(out, numpy.frombuffer(view, numpy.uint8))


def _file(source: Source, out: Optional[Pixels] = None) -> _File:
    """Returns the bytes of a source, a copy if they can be written. Raises ValueError if `out` may share their memory."""
    view, name = _view(source), _name_of(source)
    if _overlap(view, out):
        raise ValueError(_with_name(name, "out shares memory with the source"))
    if not view.readonly:
        view = memoryview(bytes(view))
    return _File(ffi.from_buffer("uint8_t[]", view), name, isinstance(view.obj, bytes))


def _buffer(array: Pixels) -> Any:
    """Returns a buffer of cffi over an array that is written."""
    return ffi.from_buffer("uint8_t[]", array.reshape(-1), require_writable=True)


def _new(shape: Tuple[int, ...], file: _File) -> Pixels:
    """Returns an array to decode into: zeros if the file may have changed since its head was read.

    A changed file may have a smaller image, which does not fill the array.
    """
    return numpy.empty(shape, numpy.uint8) if file.is_fixed else numpy.zeros(shape, numpy.uint8)


def _name_of(source: Source) -> Optional[str]:
    """Returns the name of a source that is a path or an open file with a name, otherwise None."""
    name = source if isinstance(source, (str, os.PathLike)) else getattr(source, "name", None)
    return os.fsdecode(name) if isinstance(name, (str, bytes, os.PathLike)) else None


def _raise(
    status: int, number: int, detail: int, name: Optional[str] = None, size: Optional[Tuple[int, int]] = None
) -> NoReturn:
    """Raises the error for a status without an image, of a file of this name and size."""
    if status == NO_MEMORY:
        raise MemoryError("out of memory")
    if status == TOO_LONG:
        status, number, detail = REFUSED, _TOO_LONG, 0
    if status == REFUSED:
        raise (UnsupportedError if unsupported_text(number, detail) else RefusedError)(number, detail, name, size)
    text = {BUFFER_TOO_SMALL: "the buffer is too small", NO_LINES: "the image has no such lines"}[status]
    raise ValueError(_with_name(name, text))


def _measured(file: _File) -> Measure:
    filled = ffi.new("struct jri_header *")
    status = library.jri_read_header(file.data, len(file.data), COMPLETE, filled)
    return _measure(status, filled, file.name)


def _measure(status: int, filled: Any, name: Optional[str]) -> Measure:
    """Returns what a header says. Raises the error for a status without one, of a file of this name."""
    if status != OK:
        size = (filled.width, filled.height) if filled.width and filled.height else None
        _raise(status, filled.refusal, filled.detail, name, size)
    return Measure(filled.width, filled.height, filled.components, filled.intervals)


def _within(head: Measure, max_pixels: int, name: Optional[str]) -> None:
    """Raises ValueError if an image has more pixels than this."""
    if head.width * head.height > max_pixels:
        text = f"image of {head.width} x {head.height} pixels exceeds max_pixels={max_pixels}"
        raise ValueError(_with_name(name, text))


def _reported(filled: Any) -> Report:
    at = filled.at if filled.ended in (2, 3, 4) else None
    return Report(filled.intervals, filled.sound, filled.damaged, _ENDS[filled.ended], at)


def _shape(head: Measure, layout: Optional[Layout]) -> Tuple[int, ...]:
    """Returns the shape of an image's array in a layout."""
    if layout is None:
        return head.shape
    if layout not in LAYOUTS:
        raise ValueError(f"a layout is one of {', '.join(LAYOUTS)}")
    return (head.height, head.width, LAYOUTS[layout][1])


def _accept(out: Pixels, head: Measure, layout: Optional[Layout]) -> Pixels:
    """Returns the caller's array if the image fits it, with gaps between the lines if there is a layout."""
    shape = _shape(head, layout)
    if not isinstance(out, numpy.ndarray) or out.shape != shape or out.dtype != numpy.uint8 or not out.flags.writeable:
        raise ValueError(f"out has to be a writable array of uint8 of shape {shape}")
    if layout is None and not out.flags.c_contiguous:
        raise ValueError("out has to be contiguous if there is no layout")
    if layout is not None and (out.strides[1:] != (shape[2], 1) or out.strides[0] < shape[1] * shape[2]):
        raise ValueError("out has to be an array whose lines follow one another, each without gaps")
    return out


def _canvas(pixels: Pixels) -> Tuple[Any, int, int]:
    """Returns the start of an array whose lines may have gaps, its size up to the last line's end, and its stride."""
    stride, line = pixels.strides[0], pixels.shape[1] * pixels.shape[2]
    return ffi.cast("uint8_t *", pixels.ctypes.data), (pixels.shape[0] - 1) * stride + line, stride


def _decode(file: _File, resync: bool, pixels: Pixels, marks: Pixels, layout: Optional[Layout], filled: Any) -> int:
    """Decodes a file, resynchronised if that is asked for, into an array that has its shape."""
    read = file.data, len(file.data), RESYNC if resync else AS_IS
    if layout is None:
        return int(library.jri_decode(*read, _buffer(pixels), pixels.nbytes, _buffer(marks), marks.nbytes, filled))
    number = LAYOUTS[layout][0]
    return int(library.jri_decode_canvas(*read, *_canvas(pixels), number, _buffer(marks), marks.nbytes, filled))


def measure(source: Source) -> Measure:
    """Returns what the head says; decodes nothing."""
    return _measured(_file(source))


def read(
    source: Source,
    *,
    out: Optional[Pixels] = None,
    layout: Optional[Layout] = None,
    max_pixels: int = MAX_PIXELS,
    resync: bool = False,
) -> Picture:
    """Returns the picture, sound or damaged, the marks of its intervals and the report.

    A layout, "rgb", "bgr", "rgbx" or "bgrx", has three bytes a pixel, or four of which the last is 255; grey is spread
    to three. `out`, if given, is filled. With a layout its lines may have gaps between them. It must not share memory
    with the source (ValueError). With `resync` the file is resynchronised first, as by `jri.resync`; the report is that
    of the resynchronised file.

    A source that can be written is copied first. A read-only one must not change during the call.
    """
    file = _file(source, out)
    head = _measured(file)
    _within(head, max_pixels, file.name)
    pixels = _new(_shape(head, layout), file) if out is None else _accept(out, head, layout)
    marks = numpy.zeros(head.intervals, numpy.uint8)
    filled = ffi.new("struct jri_report *")
    status = _decode(file, resync, pixels, marks, layout, filled)
    if status not in (SOUND, DAMAGED):
        _raise(status, filled.refusal, filled.detail, file.name)
    return Picture(pixels, marks, _reported(filled))


def decode(
    source: Source,
    *,
    out: Optional[Pixels] = None,
    layout: Optional[Layout] = None,
    allow_damaged: bool = True,
    max_pixels: int = MAX_PIXELS,
    resync: bool = False,
) -> Pixels:
    """Returns the picture's pixels; arguments as for `read`.

    With allow_damaged=False a damaged file raises `DamagedError`.
    """
    picture = read(source, out=out, layout=layout, max_pixels=max_pixels, resync=resync)
    if picture.report.damaged and not allow_damaged:
        raise DamagedError(picture, _name_of(source))
    return picture.pixels


def check(source: Source, *, resync: bool = False) -> Health:
    """Returns whether a file is sound, damaged, refused or unsupported; raises no `RefusedError`. Makes no picture.

    With `resync` the file is resynchronised first, as by `jri.resync`.
    """
    return _check(_file(source), resync)


def _check(file: _File, resync: bool = False) -> Health:
    filled = ffi.new("struct jri_report *")
    status = library.jri_check(file.data, len(file.data), RESYNC if resync else AS_IS, ffi.NULL, 0, filled)
    if status == NO_MEMORY:
        raise MemoryError("out of memory")
    if status in (REFUSED, TOO_LONG):
        number = filled.refusal or _TOO_LONG
        return Health("unsupported" if unsupported_text(number, filled.detail) else "refused", None, number, filled.detail)
    return Health("damaged" if status == DAMAGED else "sound", _reported(filled), None, None)


def _checked(path: Path, resync: bool) -> Union[Health, OSError]:
    try:
        return check(path, resync=resync)
    except OSError as error:
        return error


def check_many(
    paths: Iterable[Path], *, workers: Optional[int] = None, resync: bool = False
) -> Iterator[Tuple[Path, Union[Health, OSError]]]:
    """Yields each path with the result of its check, or with the error that reading it raised, in their order.

    Checks with `workers` threads, by default one for each processor. Takes paths as they are needed, some ahead for
    each thread, so millions need no list.
    """
    import concurrent.futures

    threads = workers or os.cpu_count() or 1
    if threads < 1:
        raise ValueError("workers has to be at least 1")
    with concurrent.futures.ThreadPoolExecutor(threads) as pool:
        due: Deque[Tuple[Path, "concurrent.futures.Future[Union[Health, OSError]]"]] = collections.deque()
        for path in paths:
            due.append((path, pool.submit(_checked, path, resync)))
            if len(due) > 2 * threads:
                first, checked = due.popleft()
                yield first, checked.result()
        while due:
            first, checked = due.popleft()
            yield first, checked.result()


# These use what is defined above.
from .mending import Break, Mended, Resynced, mend, resync  # noqa: E402
from .places import Damage, Index, Stream, damages, index, lines, load_index  # noqa: E402

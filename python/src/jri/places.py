"""Pictures that arrive in parts, and parts of pictures: rows of MCUs decoded from places of a file."""

from __future__ import annotations

import bisect
import hashlib
import os
import struct
from typing import Any, BinaryIO, Iterator, List, NamedTuple, NoReturn, Optional, Tuple, Union

import numpy

from . import (
    MAX_PIXELS,
    Health,
    Layout,
    Measure,
    Path,
    Pixels,
    Report,
    Source,
    _accept,
    _buffer,
    _canvas,
    _check,
    _File,
    _file,
    _measure,
    _measured,
    _name_of,
    _new,
    _overlap,
    _raise,
    _shape,
    _view,
    _with_name,
    _within,
)
from ._library import COMPLETE, DAMAGED, LAYOUTS, NEED_MORE, NO_LINES, OK, PARTIAL, SOUND
from ._loaded import ffi, library

__all__ = ["Damage", "Index", "Stream", "damages", "index", "lines", "load_index"]

#: The maximum number of lines of a row of MCUs.
_ROW_LINES = 32

#: About the number of bytes that one call decodes.
_PART_BYTES = 1 << 20

#: A stream fed with small parts looks for new lines when the bytes of about this number of rows have come.
_ROWS_AHEAD = 2

#: More rows of MCUs than a picture has.
_ALL_ROWS = 0xFFFFFFFF

#: A saved index, little-endian: magic, version, width, height, components, intervals, lines of a row of MCUs, number of
#: positions, the file's length and its SHA-256; then the positions, each as in jri_position; then the SHA-256 of all this.
_INDEX_HEAD, _INDEX_PLACE = struct.Struct("<8s7IQ32s"), struct.Struct("<Q4I3iI")
_INDEX_MAGIC, _INDEX_VERSION, _INDEX_SUM = b"\x8bjri-idx", 1, 32


class Part(NamedTuple):
    """Lines of a picture."""

    #: which line is the first of them
    first: int
    pixels: Pixels


def _decoded(file: _File, more: int, place: Any, rows: int, head: Measure, pixels: Pixels) -> Optional[Part]:
    """Decodes the next rows of MCUs at a position, which moves, into the first lines of an array; None if there are none."""
    filled = ffi.new("struct jri_rows *")
    data = file.data
    status = library.jri_decode_rows(data, len(data), more, place, rows, _buffer(pixels), pixels.nbytes, filled)
    if status == NO_LINES or (status == OK and filled.rows == 0):
        return None
    if status != OK:
        _raise(status, filled.refusal, filled.detail, file.name)
    return Part(filled.first_line, pixels[: filled.lines])


def _lines_for(count: int, head: Measure, file: _File) -> Pixels:
    """Returns an array for `count` lines."""
    return _new((count,) + head.shape[1:], file)


def _changed(file: _File) -> ValueError:
    return ValueError(_with_name(file.name, "the source has changed"))


def lines(source: Source, count: int, first: int = 0) -> Iterator[Part]:
    """Yields the image's lines starting at `first`, `count` at a time, each part with the number of its first line.

    Reads the file once, whatever `count` is. A source that can be written is copied first. A read-only one must not
    change before the last line.
    """
    if count < 1:
        raise ValueError("count must be at least 1")
    file = _file(source)
    head = _measured(file)
    if not 0 <= first < head.height:
        raise ValueError(f"the image has no line {first}")
    return _parts_of(file, head, first, count)


def _parts_of(file: _File, head: Measure, first: int, count: int) -> Iterator[Part]:
    """Yields `count` lines at a time, starting at `first`, from blocks of whole rows of MCUs."""
    row_lines = _lines_of_row(file)
    place = _place_of_row(file, first // row_lines)
    space = max(count, _PART_BYTES // (head.width * head.components)) + row_lines
    rest = _lines_for(0, head, file)
    skip = first % row_lines
    while first < head.height:
        wanted = min(count, head.height - first)
        if len(rest) < wanted:
            block = _decoded(file, COMPLETE, place, _ALL_ROWS, head, _lines_for(space, head, file))
            if block is None or len(rest) + len(block.pixels) - skip < wanted:
                raise _changed(file)
            rest = numpy.concatenate([rest, block.pixels[skip:]]) if len(rest) else block.pixels[skip:]
            skip = 0
        yield Part(first, rest[:wanted])
        rest, first = rest[wanted:], first + wanted


def _place_of_row(file: _File, row: int) -> Any:
    """Returns the position before a row of MCUs."""
    place, filled = ffi.new("struct jri_position *"), ffi.new("struct jri_rows *")
    status = library.jri_skip_rows(file.data, len(file.data), COMPLETE, place, row, filled) if row else OK
    if status != OK:
        _raise(status, filled.refusal, filled.detail, file.name)
    return place


class Stream:
    """An image whose file arrives in parts.

        stream = jri.Stream()
        for data in connection:
            for first, pixels in stream.feed(data): ...
        for first, pixels in stream.close(): ...
        if stream.damaged: ...

    Returns each line once, in order, when the bytes make it final: with small parts, within some rows of MCUs. No line is
    taken back. Copies and keeps the file's bytes.

    `layout` and `out` are as for `jri.read`. `out`, an array of the image's shape, is filled, and the parts are views of
    it. The call that reads the head raises ValueError for a wrong one.

    A block of `with` closes the stream at its end, after which `out` is complete. Without `out` call `close` in the
    block for the last lines. If the block raises, the rest is not decoded.
    """

    def __init__(
        self, *, layout: Optional[Layout] = None, out: Optional[Pixels] = None, max_pixels: int = MAX_PIXELS
    ) -> None:
        if layout is not None and layout not in LAYOUTS:
            raise ValueError(f"a layout is one of {', '.join(LAYOUTS)}")
        self._data = bytearray()
        self._layout, self._out = layout, out
        # the number of lines that were returned
        self._lines = 0
        self._place = ffi.new("struct jri_position *")
        self._max_pixels = max_pixels
        self._closed = False
        # whether a block of `with` raised
        self._abandoned = False
        # the number of bytes at which the next look is taken
        self._wanted = 0
        self._health: Optional[Health] = None
        #: what the head says, once it has come
        self.head: Optional[Measure] = None

    def __enter__(self) -> "Stream":
        return self

    def __exit__(self, kind: Any, *_: object) -> None:
        if kind is None:
            self.close()
        elif not self._closed:
            self._closed = self._abandoned = True
            self._data = bytearray()

    def feed(self, data: Any) -> List[Part]:
        """Takes more bytes and returns the lines that they make final.

        Raises `RefusedError` for a fault that no further byte can mend.
        """
        if self._closed:
            raise ValueError("the stream is closed")
        try:
            view = memoryview(data).cast("B")
        except TypeError:
            raise TypeError(f"expected bytes, got {type(data).__name__}") from None
        if _overlap(view, self._out):
            raise ValueError("out shares memory with the source")
        self._data += view
        if len(self._data) < self._wanted:
            return []
        parts = self._parts(PARTIAL)
        self._wanted = self._next_look()
        return parts

    def close(self) -> List[Part]:
        """Ends the file and returns all further lines, grey where the file has none."""
        if self._closed:
            return []
        parts = self._parts(COMPLETE)
        self._closed = True
        return parts

    @property
    def report(self) -> Optional[Report]:
        """The report of the closed file, by a check of its bits.

        None before the stream is closed, or if its block raised.
        """
        if self._closed and not self._abandoned and self._health is None:
            with ffi.from_buffer("uint8_t[]", self._data) as data:
                self._health = _check(_File(data, None, True))
        return self._health.report if self._health else None

    @property
    def damaged(self) -> bool:
        """Whether an interval of the closed file is damaged, as if the file was cut off; False before the stream is closed."""
        report = self.report
        return report is not None and report.damaged > 0

    def _next_look(self) -> int:
        """Returns the number of bytes at which the next look is worth its time: each one reads the head and a begun row again."""
        if self.head is None:
            return len(self._data) + len(self._data) // 4
        at, row = int(self._place.at), int(self._place.row)
        if row == 0:
            return len(self._data) + (len(self._data) - at) // 2
        return len(self._data) + _ROWS_AHEAD * at // (row + 1)

    def _parts(self, more: int) -> List[Part]:
        with ffi.from_buffer("uint8_t[]", self._data) as data:
            file = _File(data, None, True)
            if self.head is None:
                self.head = self._begun(file, more)
            parts: List[Part] = []
            while self.head is not None:
                part = self._next(file, more, self.head)
                if part is None:
                    break
                parts.append(part)
                self._lines += len(part.pixels)
            return parts

    def _begun(self, file: _File, more: int) -> Optional[Measure]:
        """Returns what the header says; None if more bytes are wanted for it."""
        filled = ffi.new("struct jri_header *")
        status = library.jri_read_header(file.data, len(file.data), more, filled)
        if status == NEED_MORE:
            return None
        head = _measure(status, filled, None)
        _within(head, self._max_pixels, None)
        if self._out is not None:
            _accept(self._out, head, self._layout)
        return head

    def _next(self, file: _File, more: int, head: Measure) -> Optional[Part]:
        """Returns the next lines that are final, in the layout; None if there are none."""
        if self._out is not None and self._layout is None:
            pixels = self._out[self._lines :]
        else:
            pixels = _lines_for(max(_ROW_LINES, _PART_BYTES // (head.width * head.components)), head, file)
        part = _decoded(file, more, self._place, _ALL_ROWS, head, pixels)
        if part is None or self._layout is None:
            return part
        first, count = part.first, len(part.pixels)
        if self._out is not None:
            laid = self._out[first : first + count]
        else:
            laid = _new((count,) + _shape(head, self._layout)[1:], file)
        _lay_out(part.pixels, head, self._layout, laid)
        return Part(first, laid)


def _lay_out(pixels: Pixels, head: Measure, layout: Layout, laid: Pixels) -> None:
    """Writes lines in a layout into an array of their own."""
    status = library.jri_lay_out(
        _buffer(pixels), pixels.nbytes, head.width, head.components, *_canvas(laid), LAYOUTS[layout][0]
    )
    if status != OK:
        _raise(status, 0, 0)


class Index:
    """Positions of a file, from which any lines are decoded at their own cost; threads may share it.

    A pickled index has the file's bytes with it.
    """

    def __init__(self, file: _File, head: Measure, row_lines: int, places: List[Any]) -> None:
        self.head = head
        self._file, self._row_lines, self._places = file, row_lines, places
        self._firsts = [place.row * row_lines for place in places]

    def __reduce__(self) -> Tuple[Any, ...]:
        return _unpickled, (self._to_bytes(), bytes(ffi.buffer(self._file.data)), self._file.name)

    def lines(self, first: int, count: int) -> Pixels:
        """Returns `count` lines of the picture starting at `first`."""
        if first < 0 or count < 1 or first + count > self.head.height:
            raise ValueError("the image has no such lines")
        at = bisect.bisect_right(self._firsts, first) - 1
        above = first - self._firsts[at]
        rows = -(-(above + count) // self._row_lines)
        place = ffi.new("struct jri_position *", self._places[at][0])
        pixels = _lines_for(rows * self._row_lines, self.head, self._file)
        part = _decoded(self._file, COMPLETE, place, rows, self.head, pixels)
        if part is None or len(part.pixels) < above + count:
            raise _changed(self._file)
        return part.pixels[above : above + count]

    def save(self, target: Union[Path, BinaryIO]) -> None:
        """Writes the positions to a path or an open file, for `jri.load_index`: 108 bytes, and 40 for each position.

        They belong to this file alone, and its SHA-256 is written with them.
        """
        data = self._to_bytes()
        if isinstance(target, (str, os.PathLike)):
            with open(target, "wb") as file:
                file.write(data)
        else:
            target.write(data)

    def _to_bytes(self) -> bytes:
        head, data = self.head, self._file.data
        numbers = head.width, head.height, head.components, head.intervals, self._row_lines, len(self._places)
        parts = [_INDEX_HEAD.pack(_INDEX_MAGIC, _INDEX_VERSION, *numbers, len(data), _sum(data))]
        for it in self._places:
            parts.append(_INDEX_PLACE.pack(it.at, it.bit, it.row, it.interval, it.mcu, *it.predictions, it.state))
        written = b"".join(parts)
        return written + hashlib.sha256(written).digest()


def _sum(data: Any) -> bytes:
    return hashlib.sha256(ffi.buffer(data)).digest()


def index(source: Source, rows: int = 8) -> Index:
    """Returns an index of a file, a position before every `rows` rows of MCUs, by one pass that decodes nothing.

    A source that can be written is copied first. A read-only one must not change while the index is used.
    """
    if rows < 1:
        raise ValueError("rows must be at least 1")
    file = _file(source)
    head, row_lines = _measured(file), _lines_of_row(file)
    places = []
    place, filled = ffi.new("struct jri_position *"), ffi.new("struct jri_rows *")
    while place.row * row_lines < head.height:
        places.append(ffi.new("struct jri_position *", place[0]))
        status = library.jri_skip_rows(file.data, len(file.data), COMPLETE, place, rows, filled)
        if status != OK:
            _raise(status, filled.refusal, filled.detail, file.name)
    return Index(file, head, row_lines, places)


def _unpickled(written: bytes, data: bytes, name: Optional[str]) -> Index:
    return _index_of(written, None, _file(data)._replace(name=name))


def load_index(saved: Source, source: Source) -> Index:
    """Returns the index of a source that `Index.save` wrote; `saved` is a path, an open file or bytes.

    Reads the source once for its SHA-256, and none of its bits. Raises ValueError if the index is damaged, of another
    version, or of another file.
    """
    return _index_of(bytes(_view(saved)), _name_of(saved), _file(source))


def _index_of(written: bytes, name: Optional[str], file: _File) -> Index:
    """Returns the index of a file that was written with this name."""
    if len(written) < _INDEX_HEAD.size or not written.startswith(_INDEX_MAGIC):
        _refuse_index(name, "not an index of jri")
    _, version, *numbers, row_lines, count, length, digest = _INDEX_HEAD.unpack_from(written)
    if version != _INDEX_VERSION:
        _refuse_index(name, f"an index of version {version}, not {_INDEX_VERSION}")
    summed, end = written[:-_INDEX_SUM], _INDEX_HEAD.size + count * _INDEX_PLACE.size
    if hashlib.sha256(summed).digest() != written[-_INDEX_SUM:] or len(summed) != end:
        _refuse_index(name, "the index is damaged")
    if length != len(file.data) or digest != _sum(file.data):
        _refuse_index(name, "the index is of another file")
    head, places = _measured(file), []
    for at, bit, row, interval, mcu, p, q, r, state in _INDEX_PLACE.iter_unpack(summed[_INDEX_HEAD.size :]):
        places.append(ffi.new("struct jri_position *", [at, bit, row, interval, mcu, [p, q, r], state]))
    rows = [place.row for place in places]
    is_whole = head == Measure(*numbers) and row_lines == _lines_of_row(file)
    if not is_whole or rows[:1] != [0] or rows != sorted(set(rows)) or rows[-1] * row_lines >= head.height:
        _refuse_index(name, "the index is damaged")
    return Index(file, head, row_lines, places)


def _refuse_index(name: Optional[str], text: str) -> NoReturn:
    raise ValueError(_with_name(name, text))


def _lines_of_row(file: _File) -> int:
    """Returns the number of lines of the first row of MCUs."""
    filled = ffi.new("struct jri_header *")
    status = library.jri_read_header(file.data, len(file.data), COMPLETE, filled)
    head = _measure(status, filled, file.name)
    return min(int(filled.mcu_height), head.height)


class Damage(NamedTuple):
    """A restart interval that has no decoding."""

    interval: int
    first_mcu: int
    mcus: int
    #: the number of its first MCUs that can be decoded
    decodable: int
    #: the first and the last line of the picture that its MCUs cover
    first_line: int
    last_line: int
    #: the offsets of its first byte and after its last byte in the file; None if it has none
    bytes: Optional[Tuple[int, int]]


def damages(source: Source, *, partial: bool = False) -> Iterator[Damage]:
    """Yields the damaged intervals of a file, in order. Makes no image.

    With `partial` the source has the first bytes of a file that is arriving: only the intervals are read that these bytes end, and
    what is yielded is damage of every file that begins with them.

    A source that can be written is copied first. A read-only one must not change before the last interval.
    """
    return _damages(_file(source), PARTIAL if partial else COMPLETE)


#: The number of damaged intervals that a call lists.
_DAMAGES = 256


def _damages(file: _File, more: int) -> Iterator[Damage]:
    listed, filled = ffi.new("struct jri_damage[]", _DAMAGES), ffi.new("struct jri_damage_list *")
    while True:
        status = library.jri_list_damage(
            file.data, len(file.data), more, filled.next, filled.next_at, listed, _DAMAGES, filled
        )
        if status in (SOUND, NEED_MORE):
            return
        if status != DAMAGED:
            _raise(status, filled.refusal, filled.detail, file.name)
        for one in listed[0 : filled.count]:
            span = (one.start, one.end) if one.start < one.end else None
            yield Damage(
                one.interval, one.first_mcu, one.mcus, one.decodable, one.first_line, one.last_line, span
            )

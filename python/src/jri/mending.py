"""Damaged files written anew: with their restart markers in step, or mended from copies."""

from __future__ import annotations

from dataclasses import dataclass
from typing import Any, Iterable, List, NamedTuple, Optional, Tuple

import numpy

from . import _ENDS, Ended, Source, _buffer, _File, _file, _measured, _raise, _with_name
from ._library import BUFFER_TOO_SMALL, COMPLETE, DAMAGED, NO_COPIES, OK, OTHER_HEADER, REFUSED, SOUND
from ._loaded import ffi, library

__all__ = ["Break", "Mended", "Resynced", "mend", "resync"]

#: The number of breaks that a first call lists.
_BREAKS = 256

#: A choice, as in jri_choice.
_CHOICE = numpy.dtype([(name, numpy.uint32) for name in ("copy", "mark", "decodable", "differs")])


class Break(NamedTuple):
    """A marker of a scan that is not the restart marker that was due."""

    #: the offset of its first FF in the damaged file
    at: int
    code: int
    #: the number of the restart marker that was due, 0 to 7
    due: int
    #: the number of restart markers missing before it; 0 if it is passed over
    skipped: int


@dataclass(frozen=True)
class Resynced:
    """A damaged file written with its restart markers in step, and where they were not."""

    data: bytes
    breaks: Tuple[Break, ...]
    #: what ended the scan of the damaged file
    ended: Ended
    #: the offset of the marker that ended it; None with "EOI" and "end of file"
    at: Optional[int]


@dataclass(frozen=True)
class Mended:
    """A file mended from copies of it."""

    data: bytes
    #: for each restart interval its `copy`, from 0; its `mark`, 1 if it is sound and 2 if it is damaged in all copies;
    #: how many of its first MCUs are `decodable` if it is; and whether it is sound with different data in two copies
    choices: numpy.ndarray[Any, numpy.dtype[Any]]
    #: the number of intervals that are damaged in all copies
    damaged: int

    @property
    def is_sound(self) -> bool:
        """Whether each interval is sound in a copy."""
        return self.damaged == 0


def _new_bytes(size: int) -> numpy.ndarray[Any, numpy.dtype[numpy.uint8]]:
    return numpy.empty(size, numpy.uint8)


def _resynced(file: _File) -> Tuple[Any, Any, Any]:
    """Returns a resynchronised file as an array, the report and its breaks."""
    size, capacity = len(file.data) + 2 * _measured(file).intervals, _BREAKS
    filled = ffi.new("struct jri_resynced *")
    while True:
        out, listed = _new_bytes(size), ffi.new("struct jri_break[]", capacity)
        status = library.jri_resynchronise(file.data, len(file.data), _buffer(out), size, listed, capacity, filled)
        if status not in (OK, BUFFER_TOO_SMALL):
            _raise(status, filled.refusal, filled.detail, file.name)
        if status == OK and filled.breaks <= capacity:
            return out[: filled.size], filled, listed
        size, capacity = max(size, filled.size), max(capacity, filled.breaks)


def _in_step(file: _File) -> _File:
    """Returns a file with its restart markers in step."""
    return _File(ffi.from_buffer("uint8_t[]", _resynced(file)[0]), file.name, True)


def resync(source: Source) -> Resynced:
    """Returns a damaged file written with its restart markers in step, and the markers that were not.

    An interval that is lost has no data in it, and those after it are where they belong. A file whose markers are in
    step keeps the data of each interval. A source that can be written is copied first. A read-only one must not change
    during the call.
    """
    out, filled, listed = _resynced(_file(source))
    breaks = tuple(Break(it.at, it.code, it.due, it.skipped) for it in listed[0 : filled.breaks])
    return Resynced(out.tobytes(), breaks, _ENDS[filled.ended], filled.at if filled.ended in (2, 4) else None)


def _named(sources: Iterable[Source]) -> List[_File]:
    """Returns the files of sources, each with a name for errors."""
    files = map(_file, sources)
    return [it if it.name else it._replace(name=f"copy {number}") for number, it in enumerate(files)]


def _sizes(files: List[_File]) -> Tuple[int, int]:
    """Returns about the size of the mended file and the number of its intervals, by the first header."""
    filled = ffi.new("struct jri_header *")
    if files:
        library.jri_read_header(files[0].data, len(files[0].data), COMPLETE, filled)
    return max((len(it.data) for it in files), default=0) + 2 * filled.intervals, filled.intervals


def mend(sources: Iterable[Source], *, resync: bool = True) -> Mended:
    """Returns a file mended from copies that are damaged in different places, at most 64.

    Each restart interval is taken from the first copy in which it is sound, otherwise from the first of those in which
    most MCUs can be decoded. Each copy is resynchronised first, as by `jri.resync`, unless `resync` is False. Raises
    `RefusedError` for a copy that jri does not decode, and ValueError for one with another header than the first.
    """
    if isinstance(sources, (str, bytes, bytearray, memoryview)):
        raise TypeError(f"expected several sources, got {type(sources).__name__}")
    files = [_in_step(it) if resync else it for it in _named(sources)]
    copies = b"".join(bytes(ffi.buffer(it.data)) for it in files)
    sizes = ffi.new("size_t[]", [len(it.data) for it in files])
    size, capacity = _sizes(files)
    filled = ffi.new("struct jri_mended *")
    while True:
        out, choices = _new_bytes(size), numpy.zeros(capacity, _CHOICE)
        listed = ffi.from_buffer("struct jri_choice[]", choices, require_writable=True)
        status = library.jri_mend(
            ffi.from_buffer("uint8_t[]", copies), len(copies), sizes, len(files), _buffer(out), size, listed, capacity, filled
        )
        if status == NO_COPIES:
            raise ValueError(f"from 1 to 64 copies are mended, not {len(files)}")
        if status == OTHER_HEADER:
            raise ValueError(_with_name(files[filled.copy].name, "its header is not that of the first copy"))
        if status not in (SOUND, DAMAGED, BUFFER_TOO_SMALL):
            _raise(status, filled.refusal, filled.detail, files[filled.copy].name if status == REFUSED else None)
        if status != BUFFER_TOO_SMALL and filled.intervals <= capacity:
            return Mended(out[: filled.size].tobytes(), choices, filled.damaged)
        size, capacity = max(size, filled.size), max(capacity, filled.intervals)

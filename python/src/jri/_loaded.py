"""libjri, loaded by cffi."""

from __future__ import annotations

import os
from typing import Any

from . import _ffi
from ._library import CALLS

# Checkers that have stubs of cffi know no struct and no call that is declared here.
ffi: Any = _ffi.ffi

#: The shared library's name has the number of its interface.
_SONAME = f"libjri.so.0.{CALLS}"

_HERE = os.path.dirname(os.path.abspath(__file__))

#: The module's own library for processors with AVX2 and what belongs to it, and the one for any x86-64.
_FAST, _ANY = os.path.join(_HERE, "x86-64-v3", _SONAME), os.path.join(_HERE, _SONAME)

#: What a processor of x86-64-v3 has, as the kernel names it.
_V3 = frozenset(("avx", "avx2", "bmi1", "bmi2", "f16c", "fma", "abm", "movbe"))

_HINT = f"install the package libjri0.{CALLS}, run tools/install, or set JRI_LIBRARY to the path of {_SONAME}"


def _has_v3(processors: str = "/proc/cpuinfo") -> bool:
    """Returns whether this machine's processors are of x86-64-v3, by the first one that the kernel describes."""
    try:
        with open(processors, encoding="ascii", errors="replace") as file:
            flags = next((line for line in file if line.startswith("flags")), "")
    except OSError:
        return False
    return _V3 <= set(flags.split())


def _path() -> str:
    """Returns what JRI_LIBRARY says, otherwise the library in the module's directory, otherwise the system's."""
    given = os.environ.get("JRI_LIBRARY")
    if given:
        return given
    if os.path.exists(_FAST) and _has_v3():
        return _FAST
    return _ANY if os.path.exists(_ANY) else _SONAME


def _load(path: str) -> Any:
    """Loads the library. Raises ImportError if it is not libjri of this version.

    Its calls release the interpreter's lock.
    """
    try:
        library = ffi.dlopen(path)
    except OSError as error:
        raise ImportError(f"cannot load {path}: {_HINT} ({error})") from None
    try:
        version = library.jri_version()
    except (AttributeError, ffi.error):
        raise ImportError(f"{path} is not libjri: {_HINT}") from None
    if version != CALLS:
        raise ImportError(f"{path} has version {version} of the interface, not {CALLS}: {_HINT}")
    try:
        for name in dir(library):
            getattr(library, name)
    except (AttributeError, ffi.error) as error:
        raise ImportError(f"{path} lacks a call: {_HINT} ({error})") from None
    return library


library = _load(_path())


def library_text(number: int, detail: int) -> str:
    """Returns the text of a refusal, as jri prints it."""
    text = ffi.new("uint8_t[64]")
    return bytes(ffi.buffer(text, library.jri_refusal_text(number, detail, text, 64))).decode("ascii")


def build_text() -> str:
    """Returns the name and the version of the library's build."""
    text = ffi.new("uint8_t[96]")
    return bytes(ffi.buffer(text, library.jri_build_text(text, 96))).decode("ascii")

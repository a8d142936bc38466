#!/usr/bin/env python3
"""Writes src/jri/_ffi.py: the declarations of src/jri/_library.py as cffi compiles them, so that no import parses them.

    python/make_ffi.py [OUT]

OUT is src/jri/_ffi.py if none is given.
"""

import importlib.util
import os
import sys
import tempfile

import cffi

sys.dont_write_bytecode = True
SOURCES = os.path.join(os.path.dirname(os.path.abspath(__file__)), "src", "jri")


def make(out):
    """Writes the module to a path."""
    spec = importlib.util.spec_from_file_location("declarations", os.path.join(SOURCES, "_library.py"))
    declarations = importlib.util.module_from_spec(spec)
    spec.loader.exec_module(declarations)
    builder = cffi.FFI()
    builder.set_source("jri._ffi", None)
    declarations.declare(builder)
    with tempfile.TemporaryDirectory() as directory:
        made = os.path.join(directory, "_ffi.py")
        builder.emit_python_code(made)
        with open(made, encoding="ascii") as file:
            code = file.read()
    with open(out, "w", encoding="ascii") as file:
        file.write(code.replace("# auto-generated file\n", "# Written by python/make_ffi.py.\n# mypy: ignore-errors\n", 1))


if __name__ == "__main__":
    make(sys.argv[1] if len(sys.argv) > 1 else os.path.join(SOURCES, "_ffi.py"))

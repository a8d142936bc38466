"""What libjri returns natively, by ctypes, in the words of web/jri.js: tools/check-web compares both."""

import ctypes
import hashlib
import importlib
import os
import re
import sys
import types

import c_header

ROOT = os.path.join(os.path.dirname(os.path.abspath(__file__)), "..", "..")
STRUCTS = c_header.classes()
KINDS = ("grey", "rgb", "ycbcr")
ENDS = (None, "EOI", "marker", "out of step", "extra restart", "end of file")
OK, NO_MEMORY, REFUSED, DAMAGED, TOO_SMALL, NO_LINES, TOO_LONG, OTHER_HEADER = 0, 1, 2, 3, 4, 5, 8, 10
COMPLETE = 0
RGBX = 3
# Larger images are not decoded, and of longer lists of damage the first entries are compared: headers may claim much.
MAX_PIXELS, MAX_DAMAGES = 4_000_000, 200
ROWS = 3


class Refused(Exception):
    """A status without an image, in the words of web/errors.js."""

    def __init__(self, **found):
        super().__init__(found)
        self.found = found


def in_camel_case(name):
    return re.sub("_([a-z])", lambda it: it[1].upper(), name)


def fields_of(struct):
    """Returns a struct as web/structs.js reads it."""
    found = {}
    for name, _ in struct._fields_:
        value = getattr(struct, name)
        found[in_camel_case(name)] = list(value) if isinstance(value, ctypes.Array) else value
    return found


def digest(data):
    return hashlib.sha256(data).hexdigest()[:32]


def load_refusals(library_text):
    """Returns the texts of refusals of the Python module, without the module's library."""
    package, loaded = types.ModuleType("jri"), types.ModuleType("jri._loaded")
    package.__path__, loaded.library_text = [os.path.join(ROOT, "python", "src", "jri")], library_text
    sys.modules.update({"jri": package, "jri._loaded": loaded})
    return importlib.import_module("jri.refusals")


class Native:
    """The shared library."""

    def __init__(self, path):
        self.library = ctypes.CDLL(path)
        self.library.jri_refusal_text.restype = self.library.jri_end_text.restype = ctypes.c_uint64
        self.refusals = load_refusals(self.refusal_text)

    def refusal_text(self, number, detail):
        text = ctypes.create_string_buffer(96)
        length = self.library.jri_refusal_text(ctypes.c_uint32(number), ctypes.c_uint64(detail), text, ctypes.c_size_t(96))
        return text.raw[:length].decode()

    def fail(self, status, number=0, detail=0, copy=None):
        """Raises what web/jri.js throws for a status."""
        where = {} if copy is None else {"copy": copy}
        if status == NO_MEMORY:
            raise Refused(error="OutOfMemoryError")
        if status == NO_LINES:
            raise Refused(error="NoLinesError")
        if status == OTHER_HEADER:
            raise Refused(error="CopiesError", copy=copy)
        if status == TOO_LONG:
            number, detail = 18, 0
        unsupported = self.refusals.unsupported_text(number, detail)
        name = "UnsupportedError" if unsupported else "RefusedError"
        raise Refused(error=name, number=number, detail=detail, message=unsupported or self.refusal_text(number, detail), **where)

    def header(self, data):
        found = STRUCTS["jri_header"]()
        status = self.library.jri_read_header(data, ctypes.c_size_t(len(data)), 0, ctypes.byref(found))
        if status != OK:
            self.fail(status, found.refusal, found.detail)
        fields = fields_of(found)
        del fields["refusal"], fields["detail"]
        return {**fields, "kind": KINDS[found.kind]}

    def report(self, status, found):
        """Returns a report; raises what a status without one comes to."""
        if status not in (OK, DAMAGED):
            self.fail(status, found.refusal, found.detail)
        text = ctypes.create_string_buffer(96)
        length = self.library.jri_end_text(ctypes.byref(found), text, ctypes.c_size_t(96))
        fields = fields_of(found)
        del fields["refusal"], fields["detail"]
        return {**fields, "ended": ENDS[found.ended], "text": text.raw[:length].decode()}

    def call(self, name, data, *parts):
        """Makes a call whose last argument is a report."""
        found = STRUCTS["jri_report"]()
        status = getattr(self.library, name)(data, ctypes.c_size_t(len(data)), *parts, ctypes.byref(found))
        return self.report(status, found)

    def decode(self, data, resync=0):
        header = self.header(data)
        pixels, marks = ctypes.create_string_buffer(header["pixels"]), ctypes.create_string_buffer(header["intervals"])
        sizes = ctypes.c_size_t(header["pixels"]), ctypes.c_size_t(header["intervals"])
        report = self.call("jri_decode", data, ctypes.c_uint32(resync), pixels, sizes[0], marks, sizes[1])
        return pixels.raw, marks.raw, report

    def canvas(self, data):
        """Returns the image as a browser's canvas has it."""
        header = self.header(data)
        stride = 4 * header["width"]
        size = ctypes.c_size_t(stride * header["height"])
        pixels = ctypes.create_string_buffer(size.value)
        self.call("jri_decode_canvas", data, 0, pixels, size, ctypes.c_size_t(stride), ctypes.c_uint32(RGBX), None, ctypes.c_size_t(0))
        return pixels.raw

    def lines(self, data, first, count):
        header = self.header(data)
        size = header["width"] * header["components"] * count
        pixels = ctypes.create_string_buffer(size)
        report = self.call("jri_decode_lines", data, 0, ctypes.c_uint32(first), ctypes.c_uint32(count), pixels, ctypes.c_size_t(size))
        return pixels.raw, report

    def check(self, data, resync=0):
        header = self.header(data)
        marks = ctypes.create_string_buffer(header["intervals"])
        report = self.call("jri_check", data, ctypes.c_uint32(resync), marks, ctypes.c_size_t(header["intervals"]))
        return marks.raw, report

    def damages(self, data, most=MAX_DAMAGES):
        entries, found, listed = (STRUCTS["jri_damage"] * 64)(), STRUCTS["jri_damage_list"](), []
        while len(listed) < most:
            size, first_at = ctypes.c_size_t(len(data)), ctypes.c_uint64(found.next_at)
            words = COMPLETE, found.next, first_at, entries, ctypes.c_size_t(64)
            status = self.library.jri_list_damage(data, size, *words, ctypes.byref(found))
            if status not in (OK, DAMAGED):
                self.fail(status, found.refusal, found.detail)
            listed += [fields_of(it) for it in entries[: found.count]]
            if status == OK:
                break
        return listed[:most]

    def resynchronise(self, data):
        size = len(data) + 2 * self.header(data)["intervals"]
        out, found = ctypes.create_string_buffer(size), STRUCTS["jri_resynced"]()
        entries = (STRUCTS["jri_break"] * (len(data) // 2 + 1))()
        words = data, ctypes.c_size_t(len(data)), out, ctypes.c_size_t(size), entries, ctypes.c_size_t(len(entries))
        status = self.library.jri_resynchronise(*words, ctypes.byref(found))
        if status != OK:
            self.fail(status, found.refusal, found.detail)
        breaks = [fields_of(it) for it in entries[: found.breaks]]
        return out.raw[: found.size], breaks, found

    def prepared(self, data, copy):
        """Returns a copy as jri_mend reads it, and its breaks."""
        try:
            out, breaks, found = self.resynchronise(data)
        except Refused as error:
            raise Refused(**error.found, copy=copy) from None
        is_in_step = not breaks and ENDS[found.ended] == "EOI"
        return data if is_in_step else out, [{"copy": copy, **it} for it in breaks]

    def mend(self, copies):
        """Returns the mended file, the choices and the breaks of copies that are resynchronised first."""
        prepared = [self.prepared(data, copy) for copy, data in enumerate(copies)]
        files = b"".join(data for data, _ in prepared)
        sizes = (ctypes.c_size_t * len(copies))(*(len(data) for data, _ in prepared))
        header = self.header(prepared[0][0])
        size = sum(sizes) + 2 * header["intervals"]
        out, choices, found = ctypes.create_string_buffer(size), (STRUCTS["jri_choice"] * header["intervals"])(), STRUCTS["jri_mended"]()
        words = files, ctypes.c_size_t(len(files)), sizes, ctypes.c_size_t(len(copies)), out, ctypes.c_size_t(size)
        status = self.library.jri_mend(*words, choices, ctypes.c_size_t(len(choices)), ctypes.byref(found))
        if status not in (OK, DAMAGED):
            self.fail(status, found.refusal, found.detail, found.copy)
        breaks = [it for _, some in prepared for it in some]
        listed = [fields_of(it) for it in choices]
        is_first = all((it["copy"], it["mark"]) == (0, 1) for it in listed) and all(it["copy"] for it in breaks)
        data = prepared[0][0] if is_first else out.raw[: found.size]
        return {"bytes": digest(data), "intervals": found.intervals, "damaged": found.damaged, "choices": listed, "breaks": breaks}

    def outcome(self, data):
        """Returns what web/trial.js finds of a file."""
        found = {"header": attempt(lambda: self.header(data))}
        is_small = found["header"].get("pixels", 0) <= MAX_PIXELS
        for resync in (0, 1):
            found[f"check {resync}"] = attempt(lambda: self.checked(self.check(data, resync)))
            found[f"decode {resync}"] = attempt(lambda: self.decoded(self.decode(data, resync))) if is_small else None
        found["damages"] = attempt(lambda: self.damages(data))
        found["resynchronised"] = attempt(lambda: self.resynced(self.resynchronise(data)))
        found["canvas"] = attempt(lambda: digest(self.canvas(data))) if is_small else None
        found["lines"] = attempt(lambda: self.some_lines(data)) if is_small else None
        return found

    def checked(self, found):
        return {"marks": digest(found[0]), "report": found[1]}

    def decoded(self, found):
        return {"pixels": digest(found[0]), "marks": digest(found[1]), "report": found[2]}

    def resynced(self, found):
        data, breaks, report = found
        return {"bytes": digest(data), "breaks": breaks, "ended": ENDS[report.ended], "found": report.found, "at": report.at}

    def some_lines(self, data):
        """The lines of the middle of the image."""
        height = self.header(data)["height"]
        first = height // 3
        pixels, report = self.lines(data, first, min(ROWS, height - first))
        return {"pixels": digest(pixels), "report": report}


def attempt(call):
    """Returns what a call returns, or the error that web/jri.js has in its place."""
    try:
        return call()
    except Refused as error:
        return error.found

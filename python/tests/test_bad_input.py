"""What comes of files that are refused or damaged, and of wrong arguments."""

import io
import mmap
import os
import pickle
import re
import subprocess
import textwrap

import numpy
import pytest
from conftest import by_djpeg, made

import jri
from jri.refusals import unsupported_text


def damaged(photo):
    """The photo with the bits of one interval turned to ones, and where that interval stands."""
    starts = [i for i in range(len(photo) - 1) if photo[i] == 0xFF and 0xD0 <= photo[i + 1] <= 0xD7]
    start, end = starts[4] + 2, starts[5]
    return photo[:start] + b"\x00" * (end - start) + photo[end:]


def test_shows_a_damaged_file(photo):
    picture = jri.read(damaged(photo))
    assert picture.report.damaged == 1 and picture.report.sound == picture.report.intervals - 1
    assert list(numpy.flatnonzero(picture.marks == 2)) == [5]
    # Five intervals of 8 MCUs are 40 of 15 a row, so that the third row of MCUs begins to differ.
    assert numpy.array_equal(picture.pixels[:32], by_djpeg(photo)[:32])


def test_raises_damaged_where_that_is_asked_for(photo):
    with pytest.raises(jri.DamagedError) as raised:
        jri.decode(damaged(photo), allow_damaged=False)
    assert raised.value.picture.report.damaged == 1
    sent = pickle.loads(pickle.dumps(raised.value))
    assert numpy.array_equal(sent.picture.pixels, raised.value.picture.pixels)


@pytest.mark.parametrize(
    "data, number, detail",
    [(b"", 1, 0), (b"GIF89a", 1, 0), (b"\xff\xd8", 2, 0), (b"\xff\xd8\x00\x00\x00", 3, 2), (b"\xff\xd8\xff\xc2\x00\x0b", 5, 0xC2)],
)
def test_refuses_by_number(data, number, detail):
    for call in (jri.measure, jri.decode, lambda source: jri.lines(source, 8)):
        with pytest.raises(jri.RefusedError) as raised:
            call(data)
        assert (raised.value.number, raised.value.detail) == (number, detail) and str(raised.value)
        assert raised.value.size is None
        assert str(pickle.loads(pickle.dumps(raised.value))) == str(raised.value)


def with_frame(photo, at, value):
    """The photo with a byte of its frame header changed: 2 is P, 3 and 5 Y and X, 7 Nf, 8 to 10 the first component."""
    frame = photo.index(b"\xff\xc0") + 2 + at
    return photo[:frame] + bytes([value]) + photo[frame + 1 :]


def by_jpegtran(photo, *words):
    return subprocess.run(["jpegtran", *words], input=photo, stdout=subprocess.PIPE, check=True).stdout


def test_unsupported_files_have_an_error_of_their_own(photo):
    start = photo.index(b"\xff\xdb")
    files = {
        (4, 0xCC): photo[:start] + b"\xff\xcc\x00\x04\x00\x10" + photo[start:],
        (4, 0xDE): photo[:start] + b"\xff\xde\x00\x0b\x08" + photo[start:],
        (5, 0xC2): by_jpegtran(photo, "-progressive"),
        (5, 0xC9): by_jpegtran(photo, "-arithmetic"),
        (10, 0): with_frame(photo, 2, 12),
        (11, 0): with_frame(with_frame(photo, 3, 0), 4, 0),
        (13, 0): with_frame(photo, 7, 4)[:start] + cmyk_frame() + photo[start:],
        (14, 0): with_frame(photo, 9, 0x33),
        (17, 0): photo[: photo.index(b"\xff\xc4")] + photo[photo.index(b"\xff\xda") :],
    }
    # No frame header precedes DAC and DHP here, and a height of 0 is none.
    sizes = {4: None, 11: None, 13: (8, 8)}
    for (number, detail), data in files.items():
        for call in (jri.decode, jri.measure, jri.index, jri.Stream().feed):
            with pytest.raises(jri.UnsupportedError) as raised:
                call(data)
            assert raised.value.number == number and (detail == 0 or raised.value.detail == detail)
            assert raised.value.size == sizes.get(number, (227, 149))
            sent = pickle.loads(pickle.dumps(raised.value))
            assert type(sent) is jri.UnsupportedError and (sent.number, str(sent)) == (number, str(raised.value))
            assert sent.size == raised.value.size


def cmyk_frame():
    """A frame header of four components."""
    return bytes.fromhex("FFC0 0014 08 0008 0008 04" + "011100 021100 031100 041100")


@pytest.mark.parametrize("words", [("-progressive",), ()])
def test_several_scans_are_unsupported(photo, tmp_path, words):
    script = tmp_path / "scans"
    script.write_text("0;\n1;\n2;\n")
    with pytest.raises(jri.UnsupportedError) as raised:
        jri.decode(by_jpegtran(photo, *words, *([] if words else ["-scans", str(script)])))
    assert raised.value.number == (5 if words else 15)


@pytest.mark.parametrize("data", [b"", b"GIF89a", b"\xff\xd8", b"\xff\xd8\x00\x00", b"\xff\xd8\xff\xc8\x00\x02"])
def test_broken_files_are_not_unsupported(data):
    with pytest.raises(jri.RefusedError) as raised:
        jri.decode(data)
    assert type(raised.value) is jri.RefusedError
    assert type(pickle.loads(pickle.dumps(raised.value))) is jri.RefusedError


def test_refuses_an_out_that_shares_memory_with_the_source(photo):
    size = 149 * 227 * 3
    held = numpy.zeros(size + len(photo), numpy.uint8)
    held[size:] = numpy.frombuffer(photo, numpy.uint8)
    apart, over = held[:size].reshape(149, 227, 3), held[1 : size + 1].reshape(149, 227, 3)
    source, last = held[size:], held[-size:].reshape(149, 227, 3)
    before = held.copy()
    for out in (over, last):
        for of in (source, memoryview(source), memoryview(source).toreadonly()):
            for call in (jri.read, jri.decode):
                with pytest.raises(ValueError, match="shares memory"):
                    call(of, out=out)
            with pytest.raises(ValueError, match="shares memory"):
                jri.decode(of, out=out, layout="rgb")
    assert numpy.array_equal(held, before)
    assert jri.decode(source, out=apart) is apart and numpy.array_equal(apart, by_djpeg(photo))


def test_refuses_a_source_in_the_gaps_of_out(photo):
    held = numpy.zeros((149, 300, 3), numpy.uint8)
    gap = held[0, 227:].reshape(-1)
    with pytest.raises(ValueError, match="shares memory"):
        jri.decode(memoryview(gap), out=held[:, :227], layout="rgb")


class Swapping:
    """A library whose file becomes another one before a call decodes it."""

    def __init__(self, library, held, other):
        self.library, self.held, self.other = library, held, other

    def __getattr__(self, name):
        if name in ("jri_decode", "jri_decode_canvas", "jri_decode_rows"):
            self.held[:] = self.other + bytes(len(self.held) - len(self.other))
        return getattr(self.library, name)


def sevens(shape, dtype):
    return numpy.full(shape, 7, dtype)


@pytest.fixture
def swapped(photo, monkeypatch):
    """A file that becomes a smaller one after its head was read; new arrays have 7 in each byte."""
    held = bytearray(photo)
    swapping = Swapping(jri.library, held, made(17, 9, ["-sample", "2x2"]))
    monkeypatch.setattr(jri, "library", swapping)
    monkeypatch.setattr(jri.places, "library", swapping)
    monkeypatch.setattr(numpy, "empty", sevens)
    return held


@pytest.mark.parametrize("layout", [None, "bgrx"])
def test_a_source_that_can_be_written_is_copied(swapped, photo, layout):
    expected = jri.decode(bytes(photo), layout=layout)
    assert swapped != photo
    swapped[:] = photo
    assert numpy.array_equal(jri.decode(swapped, layout=layout), expected)
    swapped[:] = photo
    places = jri.index(swapped, 1)
    swapped[:] = photo
    lines = jri.lines(memoryview(swapped), 149)
    assert numpy.array_equal(places.lines(20, 100), jri.decode(bytes(photo))[20:120])
    assert numpy.array_equal(next(lines).pixels, jri.decode(bytes(photo)))


@pytest.mark.parametrize("layout", [None, "bgrx"])
def test_no_byte_of_a_changed_source_is_left_as_memory_was(swapped, photo, layout):
    pixels = jri.decode(memoryview(swapped).toreadonly(), layout=layout)
    small = jri.decode(bytes(swapped), layout=layout)
    if layout is None:
        pixels, small = pixels.reshape(-1), small.reshape(-1)
    shown = tuple(slice(size) for size in small.shape)
    assert numpy.array_equal(pixels[shown], small)
    pixels[shown] = 0
    assert not pixels.any()
    swapped[:] = photo
    with pytest.raises(ValueError, match="the source has changed"):
        list(jri.lines(memoryview(swapped).toreadonly(), 8))
    swapped[:] = photo
    places = jri.index(memoryview(swapped).toreadonly(), 1)
    with pytest.raises(ValueError, match="the source has changed"):
        places.lines(0, 149)


def test_takes_a_mapped_file_that_can_be_written(photo, tmp_path):
    path = tmp_path / "photo.jpg"
    path.write_bytes(photo)
    with open(path, "r+b") as file, mmap.mmap(file.fileno(), 0) as mapped:
        places = jri.index(mapped)
        mapped[:] = bytes(len(photo))
        assert numpy.array_equal(places.lines(0, 149), by_djpeg(photo))


def test_refuses_more_than_max_pixels(photo):
    with pytest.raises(ValueError, match="max_pixels"):
        jri.decode(photo, max_pixels=227 * 149 - 1)
    assert jri.decode(photo, max_pixels=227 * 149).shape == (149, 227, 3)


@pytest.mark.parametrize(
    "out",
    [
        numpy.zeros((149, 227), numpy.uint8),
        numpy.zeros((149, 227, 3), numpy.int8),
        numpy.zeros((149, 454, 3), numpy.uint8)[:, ::2],
        numpy.frombuffer(bytes(149 * 227 * 3), numpy.uint8).reshape(149, 227, 3),
    ],
    ids=["shape", "type", "stride", "read only"],
)
def test_refuses_a_wrong_out(photo, out):
    with pytest.raises(ValueError, match="out has to be"):
        jri.decode(photo, out=out)


@pytest.mark.parametrize("count, first", [(0, 0), (-1, 0), (8, 149), (8, -1)])
def test_refuses_lines_that_are_not_there(photo, count, first):
    with pytest.raises(ValueError):
        jri.lines(photo, count, first)


@pytest.mark.parametrize("source", [None, 7, object(), ["a"]])
def test_refuses_what_has_no_bytes(source):
    with pytest.raises(TypeError):
        jri.decode(source)


def test_reports_a_path_that_is_not_there(tmp_path):
    with pytest.raises(FileNotFoundError):
        jri.decode(tmp_path / "none.jpg")


def test_checks_as_it_decodes(photo):
    for data in (photo, damaged(photo), photo[: len(photo) // 2]):
        health = jri.check(data)
        report = jri.read(data).report
        assert health.report == report and health.refusal is None
        assert health.verdict == ("damaged" if report.damaged else "sound")
    assert jri.check(damaged(photo)).text == "1 of 19 intervals are damaged"


@pytest.mark.parametrize(
    "data, verdict, number, detail, text",
    [
        (b"", "refused", 1, 0, "not a JPEG file"),
        (b"\xff\xd8\xff\xc2\x00\x0b", "unsupported", 5, 0xC2, "progressive JPEG (SOF2) is not supported"),
        (b"\xff\xd8\xff\xcf\x00\x0b", "unsupported", 5, 0xCF, "hierarchical JPEG (SOF15) is not supported"),
        (b"\xff\xd8\xff\xcc\x00\x04\x00\x10", "unsupported", 4, 0xCC, "arithmetic-coded JPEG (DAC) is not supported"),
    ],
)
def test_a_refusal_is_an_answer_of_a_check(data, verdict, number, detail, text):
    health = jri.check(data)
    assert (health.verdict, health.report, health.refusal, health.detail) == (verdict, None, number, detail)
    assert health.text == f"{verdict}: {text}"
    with pytest.raises(jri.RefusedError) as raised:
        jri.decode(data)
    assert str(raised.value) == text and (type(raised.value) is jri.UnsupportedError) == (verdict == "unsupported")


def test_unsupported_files_have_the_words_of_jri_check():
    path = os.path.join(os.path.dirname(os.path.abspath(__file__)), "..", "..", "crates", "jri_archive", "src", "unsupported.rt")
    with open(path, encoding="utf-8") as file:
        source = file.read()
    details = {4: (0xCC, 0xDE), 5: [it for it in range(0xC2, 0xD0) if it not in (0xC4, 0xC8, 0xCC)]}
    texts = {unsupported_text(number, detail) for number in range(1, 20) for detail in details.get(number, (0,))} - {None}
    frames = {it for it in texts if "(SOF" in it}
    assert texts - frames == set(re.findall(r'=> "([^"]* supported)"', source)) and len(texts - frames) == 10
    assert {it.partition(" (SOF")[0] for it in frames} == set(re.findall(r'=> "([^"]* JPEG)"', source)) and len(frames) == 11


def test_leaves_an_open_file_where_it_was(photo, tmp_path):
    path = tmp_path / "photo.jpg"
    path.write_bytes(b"before" + photo)
    with open(path, "rb") as file:
        file.seek(6)
        assert jri.measure(file).intervals == 19 and file.tell() == 6
        assert numpy.array_equal(jri.decode(file), jri.decode(io.BytesIO(photo))) and jri.check(file).verdict == "sound"


def test_reads_a_file_that_cannot_be_sought(photo):
    with subprocess.Popen(["cat"], stdin=subprocess.PIPE, stdout=subprocess.PIPE) as process:
        process.stdin.write(photo)
        process.stdin.close()
        assert jri.measure(process.stdout).intervals == 19


@pytest.mark.parametrize("workers", [1, 2, 64, None])
def test_checks_many_in_their_order(photo, tmp_path, workers):
    names = []
    for number in range(300):
        path = tmp_path / f"{number}.jpg"
        if number % 7:
            path.write_bytes(damaged(photo) if number % 3 == 0 else photo)
        names.append(str(path))
    seen = list(jri.check_many(iter(names), workers=workers))
    assert [path for path, _ in seen] == names
    for number, (_, health) in enumerate(seen):
        if number % 7 == 0:
            assert isinstance(health, FileNotFoundError)
        else:
            assert health.verdict == ("damaged" if number % 3 == 0 else "sound")


def test_the_loop_of_the_readme_takes_what_cannot_be_read(photo, tmp_path, capsys):
    readme = os.path.join(os.path.dirname(os.path.abspath(__file__)), "..", "README.md")
    with open(readme, encoding="utf-8") as file:
        (loop,) = re.findall(r"^    for path, result in jri\.check_many\(paths\):.*\n(?:^ {8}.*\n)+", file.read(), re.M)
    (tmp_path / "photo.jpg").write_bytes(photo)
    exec(textwrap.dedent(loop), {"jri": jri, "paths": [str(tmp_path / name) for name in ("photo.jpg", "none.jpg")]})
    said = capsys.readouterr().out.splitlines()
    assert said[0].endswith("photo.jpg sound") and "No such file" in said[1] and len(said) == 2


def test_refuses_no_workers():
    with pytest.raises(ValueError):
        list(jri.check_many([], workers=-1))


@pytest.mark.parametrize("call", [jri.measure, jri.decode, jri.index, lambda source: jri.lines(source, 8), lambda source: list(jri.damages(source))])
def test_errors_name_their_file(tmp_path, call):
    path = tmp_path / "text.jpg"
    path.write_bytes(b"text")
    with pytest.raises(jri.RefusedError) as raised:
        call(path)
    assert raised.value.filename == str(path) and str(raised.value) == f"{path}: not a JPEG file"
    with open(path, "rb") as file, pytest.raises(jri.RefusedError, match="text.jpg: "):
        call(file)
    with pytest.raises(jri.RefusedError) as raised:
        call(b"text")
    assert raised.value.filename is None and str(raised.value) == "not a JPEG file"

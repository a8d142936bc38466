"""Pictures compared with djpeg's, by each kind of source."""

import concurrent.futures
import io
import mmap
import pathlib
import pickle

import numpy
import pytest
from conftest import by_djpeg, made

import jri
import small_files


def test_gives_djpegs_pixels(file):
    assert numpy.array_equal(jri.decode(file), by_djpeg(file))


def test_measures_what_it_decodes(file):
    head = jri.measure(file)
    picture = jri.read(file)
    assert picture.pixels.shape == head.shape
    assert len(picture.marks) == head.intervals == picture.report.intervals == picture.report.sound
    assert picture.report.ended == "EOI" and picture.report.at is None


@pytest.mark.parametrize("small", [it for it in small_files.FILES if it.picture], ids=lambda it: it.name)
def test_gives_small_pictures_worked_out_by_hand(small):
    samples = small.picture.split(b"\n", 3)[3] if small.picture.count(b"\n") > 2 else b""
    assert jri.decode(small.data).tobytes() == samples


@pytest.mark.parametrize("count", [1, 7, 64, 149, 1000])
def test_gives_lines_of_the_same_picture(photo, count):
    whole = jri.decode(photo)
    parts = list(jri.lines(photo, count, 5))
    assert [first for first, _ in parts] == list(range(5, 149, count))
    assert numpy.array_equal(numpy.concatenate([part for _, part in parts]), whole[5:])


def test_takes_any_source(photo, tmp_path):
    path = tmp_path / "photo.jpg"
    path.write_bytes(photo)
    expected = jri.decode(photo)
    with open(path, "rb") as opened, open(path, "rb") as mapped:
        view = mmap.mmap(mapped.fileno(), 0, access=mmap.ACCESS_READ)
        words = numpy.frombuffer(photo + bytes(-len(photo) % 4), numpy.uint32)
        for source in (bytearray(photo), memoryview(photo), path, str(path), opened, view, io.BytesIO(photo), words):
            assert numpy.array_equal(jri.decode(source), expected)
    assert isinstance(path, pathlib.Path)


def test_fills_out(photo):
    out = numpy.zeros((149, 227, 3), numpy.uint8)
    assert jri.decode(photo, out=out) is out
    assert numpy.array_equal(out, by_djpeg(photo))


def test_decodes_in_threads(photo):
    expected = jri.decode(photo)
    with concurrent.futures.ThreadPoolExecutor(8) as pool:
        assert all(numpy.array_equal(it, expected) for it in pool.map(jri.decode, [photo] * 64))


def test_pictures_and_reports_can_be_sent(photo):
    sent = pickle.loads(pickle.dumps(jri.read(photo)))
    assert numpy.array_equal(sent.pixels, jri.decode(photo)) and sent.report == jri.read(photo).report

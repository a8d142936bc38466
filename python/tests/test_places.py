import concurrent.futures
import hashlib
import io
import pickle
import struct

import jri
import numpy
import pytest
from conftest import by_djpeg, laid, made


@pytest.fixture(params=["-grayscale", "2x2", "1x2"], ids=str)
def picture(request):
    """A picture of one interval, and its file."""
    words = [request.param] if request.param == "-grayscale" else ["-sample", request.param]
    data = made(227, 149, words)
    return data, by_djpeg(data)


@pytest.mark.parametrize("size", [1, 7, 64, 4096, 1 << 20])
def test_lines_as_they_arrive(picture, size):
    data, expected = picture
    stream, found = jri.Stream(), []
    for at in range(0, len(data), size):
        found += stream.feed(data[at : at + size])
    found += stream.close()
    line = 0
    for first, pixels in found:
        assert first == line
        line += len(pixels)
    assert numpy.array_equal(numpy.concatenate([pixels for _, pixels in found]), expected)


def test_what_was_shown_is_never_taken_back(picture):
    data, expected = picture
    stream, shown = jri.Stream(), 0
    for at in range(0, len(data), 100):
        for first, pixels in stream.feed(data[at : at + 100]):
            assert first == shown and numpy.array_equal(pixels, expected[first : first + len(pixels)])
            shown += len(pixels)
        assert stream.head is None or stream.head.height == 149
    assert 100 < shown <= 149


def test_a_file_that_breaks_off(picture):
    data, expected = picture
    cut = data[: len(data) // 2]
    stream = jri.Stream()
    parts = stream.feed(cut) + stream.close()
    assert numpy.array_equal(numpy.concatenate([pixels for _, pixels in parts]), jri.decode(cut))


def test_bad_streams():
    with pytest.raises(jri.RefusedError) as caught:
        jri.Stream().feed(b"GIF89a")
    assert caught.value.number == 1
    stream = jri.Stream()
    assert stream.feed(b"\xff") == [] and stream.feed(b"") == [] and stream.feed(b"\xd8\xff") == []
    with pytest.raises(jri.RefusedError) as caught:
        stream.close()
    assert caught.value.number == 2
    with pytest.raises(TypeError):
        jri.Stream().feed("text")
    with pytest.raises(ValueError):
        jri.Stream(max_pixels=100).feed(made(17, 9, ["-grayscale"]))
    done = jri.Stream()
    done.feed(made(17, 9, ["-grayscale"]))
    done.close()
    assert done.close() == []
    with pytest.raises(ValueError):
        done.feed(b"")


def fed(stream, data, size):
    """Returns all parts of a stream that is fed with `size` bytes at a time and closed."""
    parts = []
    for at in range(0, len(data), size):
        parts += stream.feed(data[at : at + size])
    return parts + stream.close()


@pytest.mark.parametrize("layout", [None, "rgb", "bgr", "rgbx", "bgrx"])
@pytest.mark.parametrize("size", [64, 1 << 20])
def test_streams_have_layouts_and_fill_out(picture, layout, size):
    data, pixels = picture
    expected = pixels if layout is None else laid(pixels, layout)
    parts = fed(jri.Stream(layout=layout), data, size)
    assert numpy.array_equal(numpy.concatenate([part for _, part in parts]), expected)
    held = numpy.full((151, 230) + expected.shape[2:], 7, numpy.uint8)
    out = numpy.full_like(expected, 7) if layout is None else held[1:150, :227]
    line = 0
    for first, part in fed(jri.Stream(layout=layout, out=out), data, size):
        assert first == line and numpy.shares_memory(part, out[first : first + len(part)])
        assert numpy.array_equal(part, expected[first : first + len(part)])
        line += len(part)
    assert line == 149 and numpy.array_equal(out, expected)
    held[1:150, :227] = 7
    assert (held == 7).all()


@pytest.mark.parametrize(
    "layout, shape",
    [(None, (149, 227)), (None, (149, 227, 4)), ("bgr", (149, 227, 4)), ("rgbx", (148, 227, 4))],
)
def test_streams_refuse_a_wrong_out(photo, layout, shape):
    stream = jri.Stream(layout=layout, out=numpy.zeros(shape, numpy.uint8))
    assert stream.feed(photo[:100]) == []
    for call in (lambda: stream.feed(photo[100:]), stream.close):
        with pytest.raises(ValueError, match="out has to be"):
            call()
    with pytest.raises(ValueError, match="a layout is one of"):
        jri.Stream(layout="cmyk")


def test_streams_refuse_bytes_of_their_out(photo):
    out = numpy.zeros((149, 227, 3), numpy.uint8)
    with pytest.raises(ValueError, match="shares memory"):
        jri.Stream(out=out).feed(out[3])


@pytest.mark.parametrize("share", [1, 2])
def test_a_block_closes_its_stream(photo, share):
    data = photo[: len(photo) // share]
    out = numpy.full((149, 227, 3), 7, numpy.uint8)
    with jri.Stream(out=out) as stream:
        stream.feed(data)
    assert numpy.array_equal(out, jri.decode(data))
    assert stream.damaged == (share == 2) and stream.close() == []
    with pytest.raises(ValueError, match="closed"):
        stream.feed(b"")
    with jri.Stream() as stream:
        assert sum(len(part) for _, part in stream.feed(data) + stream.close()) == 149
    with pytest.raises(jri.RefusedError), jri.Stream() as stream:
        stream.feed(photo[:100])


def test_a_block_that_raises_decodes_nothing_more(photo):
    out = numpy.full((149, 227, 3), 7, numpy.uint8)
    with pytest.raises(ZeroDivisionError), jri.Stream(out=out) as stream:
        shown = sum(len(part) for _, part in stream.feed(photo[: len(photo) // 2]))
        1 / 0
    assert 0 < shown < 149 and (out[shown:] == 7).all()
    assert stream.close() == [] and stream.report is None and not stream.damaged
    with pytest.raises(ValueError, match="closed"):
        stream.feed(b"")


def test_a_stream_refuses_what_no_byte_can_mend(photo):
    start = photo.index(b"\xff\xdb")
    for length in range(photo.index(b"\xff\xda")):
        assert jri.Stream().feed(photo[:length]) == []
    files = [(b"GIF", 2), (b"\xff\xd8\xff\xc2", 4)]
    files += [(photo[:start] + b"\xff\xc9", start + 2), (photo[:start] + b"\0", start + 1)]
    for data, length in files:
        assert jri.Stream().feed(data[: length - 1]) == []
        with pytest.raises(jri.RefusedError):
            jri.Stream().feed(data[:length])


@pytest.mark.parametrize("rows", [1, 3, 100])
def test_parts_of_an_index(picture, rows):
    data, expected = picture
    places = jri.index(data, rows)
    for first, count in [(0, 149), (0, 1), (148, 1), (30, 5), (64, 16), (15, 100)]:
        assert numpy.array_equal(places.lines(first, count), expected[first : first + count])
    for first, count in [(-1, 1), (0, 0), (149, 1), (100, 50)]:
        with pytest.raises(ValueError):
            places.lines(first, count)


def test_threads_share_an_index(picture):
    data, expected = picture
    places = jri.index(data, 2)
    with concurrent.futures.ThreadPoolExecutor(8) as pool:
        parts = list(pool.map(lambda first: places.lines(first, 1), range(149)))
    assert numpy.array_equal(numpy.concatenate(parts), expected)


def test_an_index_over_restart_markers(photo):
    places = jri.index(photo, 1)
    assert numpy.array_equal(places.lines(0, 149), by_djpeg(photo))


@pytest.mark.parametrize("rows", [1, 3, 100])
def test_a_saved_index(picture, rows, tmp_path):
    data, expected = picture
    path, held = tmp_path / "places", io.BytesIO()
    places = jri.index(data, rows)
    places.save(path)
    places.save(held)
    assert path.read_bytes() == held.getvalue()
    assert len(held.getvalue()) == 108 + 40 * -(-149 // (rows * (16 if expected.ndim == 3 else 8)))
    held.seek(0)
    for saved in (path, str(path), held, path.read_bytes()):
        again = jri.load_index(saved, data)
        assert again.head == places.head
        for first, count in [(0, 149), (148, 1), (30, 5)]:
            assert numpy.array_equal(again.lines(first, count), expected[first : first + count])


def test_a_pickled_index(picture, tmp_path):
    data, expected = picture
    path = tmp_path / "photo.jpg"
    path.write_bytes(data)
    places = pickle.loads(pickle.dumps(jri.index(path, 2)))
    path.unlink()
    assert numpy.array_equal(places.lines(20, 100), expected[20:120])
    with concurrent.futures.ProcessPoolExecutor(2) as pool:
        parts = list(pool.map(places.lines, (0, 64), (64, 85)))
    assert numpy.array_equal(numpy.concatenate(parts), expected)


def saved_index(data, rows=1):
    held = io.BytesIO()
    jri.index(data, rows).save(held)
    return held.getvalue()


def test_a_damaged_index_is_refused(photo):
    saved = saved_index(photo)
    for at in range(len(saved)):
        wrong = saved[:at] + bytes([saved[at] ^ 1]) + saved[at + 1 :]
        text = "not an index" if at < 8 else "of version" if at < 12 else "the index is damaged"
        with pytest.raises(ValueError, match=text):
            jri.load_index(wrong, photo)
    for length in range(len(saved)):
        with pytest.raises(ValueError, match="not an index" if length < 76 else "the index is damaged"):
            jri.load_index(saved[:length], photo)
    with pytest.raises(ValueError, match="the index is damaged"):
        jri.load_index(saved + bytes(40), photo)


def test_an_index_of_another_file_is_refused(photo, tmp_path):
    path = tmp_path / "places"
    path.write_bytes(saved_index(photo))
    same_shape = made(227, 149, ["-sample", "2x2", "-restart", "8B"], 2)
    for other in (photo[:-1], photo + b"\0", photo[:-3] + b"\1" + photo[-2:], same_shape):
        with pytest.raises(ValueError, match="places: the index is of another file"):
            jri.load_index(path, other)


@pytest.mark.parametrize(
    "at, value",
    [(12, 228), (16, 150), (20, 1), (24, 1), (28, 8), (76 + 12, 1), (76 + 40 + 12, 0), (76 + 40 + 12, 10)],
)
def test_an_index_that_does_not_fit_its_file_is_refused(photo, at, value):
    saved = saved_index(photo)
    forged = saved[:at] + struct.pack("<I", value) + saved[at + 4 : -32]
    with pytest.raises(ValueError, match="the index is damaged"):
        jri.load_index(forged + hashlib.sha256(forged).digest(), photo)


def test_damaged_intervals(photo):
    assert list(jri.damages(photo)) == []
    cut = photo[: len(photo) * 2 // 3]
    picture = jri.read(cut)
    found = list(jri.damages(cut))
    assert [one.interval for one in found] == [int(k) for k in numpy.flatnonzero(picture.marks == 2)]
    assert found[-1].bytes is None and found[0].first_line <= found[-1].last_line == 148
    with pytest.raises(jri.RefusedError):
        list(jri.damages(b"GIF89a"))


def test_damaged_intervals_of_a_file_that_arrives():
    data = bytearray(made(227, 149, ["-grayscale", "-restart", "1B"]))
    for at in (len(data) // 3, len(data) // 2):
        data[at : at + 8] = bytes(8)
    whole = list(jri.damages(data))
    seen = 0
    for size in [*range(0, len(data), 97), len(data)]:
        found = list(jri.damages(bytes(data[:size]), partial=True))
        assert found == whole[: len(found)] and seen <= len(found)
        seen = len(found)
    assert 0 < seen == len(whole)


class Counted:
    """A library that counts the calls of jri_list_damage."""

    def __init__(self, library):
        self.library, self.calls = library, 0

    def __getattr__(self, name):
        self.calls += name == "jri_list_damage"
        return getattr(self.library, name)


def test_damaged_intervals_in_parts(monkeypatch):
    data = made(227, 149, ["-grayscale", "-restart", "1B"])
    cut = data[: len(data) // 3]
    picture, counted = jri.read(cut), Counted(jri.places.library)
    at_once = list(jri.damages(cut))
    monkeypatch.setattr(jri.places, "library", counted)
    monkeypatch.setattr(jri.places, "_DAMAGES", 16)
    found = list(jri.damages(cut))
    assert found == at_once
    assert [one.interval for one in found] == [int(k) for k in numpy.flatnonzero(picture.marks == 2)]
    assert len(found) > 300
    assert counted.calls == -(-len(found) // 16) + 1


@pytest.mark.parametrize("count", [1, 7, 16, 100, 149, 1000])
@pytest.mark.parametrize("first", [0, 5, 148])
def test_lines_in_parts(picture, count, first):
    data, expected = picture
    line = first
    for at, pixels in jri.lines(data, count, first):
        assert at == line and len(pixels) == min(count, 149 - at)
        assert numpy.array_equal(pixels, expected[at : at + len(pixels)])
        line += len(pixels)
    assert line == 149


def test_a_cut_upload_is_seen(picture):
    data, _ = picture
    for file, damaged in ((data, False), (data[: len(data) * 3 // 5], True)):
        stream = jri.Stream()
        lines = sum(len(pixels) for _, pixels in stream.feed(file))
        assert stream.report is None and not stream.damaged
        lines += sum(len(pixels) for _, pixels in stream.close())
        assert lines == 149 and stream.damaged == damaged
        assert stream.report is not None and stream.report.ended == ("end of file" if damaged else "EOI")

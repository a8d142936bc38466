"""Pillow's pictures by libjri, and by itself where libjri does not decode them."""

import io
import subprocess

import numpy
import pytest
from conftest import by_djpeg, made
from PIL import Image, ImageFile

import jri.pillow


@pytest.fixture(autouse=True)
def registered():
    jri.pillow.register()
    yield
    jri.pillow.unregister()


def test_pixels_are_libjris(file):
    picture = Image.open(io.BytesIO(file))
    assert isinstance(picture, jri.pillow.JriImageFile)
    assert numpy.array_equal(numpy.asarray(picture), by_djpeg(file))


def test_keeps_what_pillow_reads(photo):
    picture = Image.open(io.BytesIO(photo))
    assert (picture.format, picture.size, picture.mode) == ("JPEG", (227, 149), "RGB")
    exif = Image.Exif()
    exif[0x010E] = "a photo"
    out = io.BytesIO()
    picture.save(out, "JPEG", exif=exif, icc_profile=b"profile")
    again = Image.open(out)
    assert again.getexif()[0x010E] == "a photo" and again.info["icc_profile"] == b"profile"
    assert numpy.array_equal(numpy.asarray(again), by_djpeg(out.getvalue()))


def test_leaves_progressive_files_to_pillow(photo):
    progressive = subprocess.run(["jpegtran", "-progressive"], input=photo, stdout=subprocess.PIPE, check=True).stdout
    picture = numpy.asarray(Image.open(io.BytesIO(progressive)))
    jri.pillow.unregister()
    assert numpy.array_equal(picture, numpy.asarray(Image.open(io.BytesIO(progressive))))


def test_leaves_smaller_pictures_to_pillow(photo):
    picture = Image.open(io.BytesIO(photo))
    picture.draft("RGB", (56, 37))
    assert picture.size == (57, 38) and numpy.asarray(picture).shape == (38, 57, 3)


def test_opens_paths(tmp_path, photo):
    path = tmp_path / "photo.jpg"
    path.write_bytes(photo)
    with Image.open(path) as picture:
        assert numpy.array_equal(numpy.asarray(picture.copy()), by_djpeg(photo))
    thumbnail = Image.open(path)
    thumbnail.thumbnail((64, 64))
    assert thumbnail.size == (64, 42)


def marked(photo, identifiers, marks):
    """The photo with other component identifiers and other segments of applications; its first segment is JFIF's."""
    frame, scan = photo.index(b"\xff\xc0"), photo.index(b"\xff\xda")
    changed = bytearray(photo)
    changed[frame + 10 : frame + 19 : 3] = identifiers
    changed[scan + 5 : scan + 11 : 2] = identifiers
    assert photo[2:4] == b"\xff\xe0"
    return photo[:2] + marks + bytes(changed[4 + int.from_bytes(photo[4:6], "big") :])


JFIF = b"\xff\xe0\x00\x10JFIF\0\1\1\0\0\1\0\1\0\0"
ADOBE = b"\xff\xee\x00\x0eAdobe\0\x64\0\0\0\0"
NO_MARKS = [b"", b"\xff\xff\xff\xfe\0\5RGB", b"\xff\xe1" + JFIF[2:]]
# What libjpeg takes for no mark, and Pillow refuses.
SHORT_MARKS = [b"\xff\xe0\0\7JFIF\0", b"\xff\xee\0\7Adobe"]


@pytest.mark.parametrize("identifiers", [b"RGB", b"rgb", b"BGR", b"\1\2\3"])
@pytest.mark.parametrize("marks", [*NO_MARKS, JFIF, ADOBE + b"\0", ADOBE + b"\1", JFIF + ADOBE + b"\0"])
def test_colours_are_libjpegs(photo, identifiers, marks):
    data = marked(photo, identifiers, marks)
    is_rgb = identifiers == b"RGB" and marks in NO_MARKS
    assert jri.pillow.is_rgb_by_identifiers(data) == is_rgb
    pixels = numpy.asarray(Image.open(io.BytesIO(data)))
    if is_rgb:
        jri.pillow.unregister()
        assert numpy.array_equal(pixels, numpy.asarray(Image.open(io.BytesIO(data))))
        assert not numpy.array_equal(pixels, jri.decode(data))
    else:
        assert numpy.array_equal(pixels, jri.decode(data))
        assert numpy.array_equal(pixels, by_djpeg(data))


@pytest.mark.parametrize("marks", SHORT_MARKS)
def test_short_marks_are_none(photo, marks):
    data = marked(photo, b"RGB", marks)
    assert jri.pillow.is_rgb_by_identifiers(data) and not numpy.array_equal(by_djpeg(data), jri.decode(data))
    assert not jri.pillow.is_rgb_by_identifiers(marked(photo, b"RGB", JFIF + marks))


def test_a_head_that_breaks_off_is_not_rgb(photo):
    data = marked(photo, b"RGB", b"")
    frame = data.index(b"\xff\xc0")
    for length in range(frame + 19):
        assert not jri.pillow.is_rgb_by_identifiers(data[:length])
    assert jri.pillow.is_rgb_by_identifiers(data[: frame + 19])


def test_by_itself_again(photo):
    jri.pillow.unregister()
    assert not isinstance(Image.open(io.BytesIO(made(8, 8, ["-grayscale"]))), jri.pillow.JriImageFile)


@pytest.mark.parametrize("cut", [True, False])
def test_damage_is_an_error_unless_allowed(photo, cut, monkeypatch):
    start = photo.index(b"\xff\xd0") + 2
    broken = photo[: len(photo) // 2] if cut else photo[:start] + bytes(len(photo) - start - 2) + photo[-2:]
    with pytest.raises(OSError, match="truncated" if cut else "broken data stream"):
        Image.open(io.BytesIO(broken)).load()
    monkeypatch.setattr(ImageFile, "LOAD_TRUNCATED_IMAGES", True)
    assert numpy.array_equal(numpy.asarray(Image.open(io.BytesIO(broken))), jri.decode(broken))

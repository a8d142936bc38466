"""Files that are resynchronised and mended: the expected bytes are those of the undamaged file, and the pixels djpeg's."""

import jri
import numpy
import pytest
from conftest import by_djpeg, made

# 64 bits of ones: no code has 16 of them (T.81, Annex C), so the interval in which they are has no decoding.
SPOT = b"\xff\x00" * 8


def marks_of(data):
    """Returns the offsets of the restart markers of a file with one scan: before interval k that of number k - 1."""
    at = data.index(b"\xff\xda")
    found = []
    while at < len(data) - 1:
        if data[at] == 0xFF and 0xD0 <= data[at + 1] <= 0xD7:
            found.append(at)
        at += 1
    return found


def spoilt(data, interval):
    """Returns the file with an interval that has no decoding."""
    at = marks_of(data)[interval - 1] + 2
    return data[:at] + SPOT + data[at + len(SPOT) :]


def without(data, interval):
    """Returns the file without an interval and the marker before it."""
    marks = marks_of(data)
    return data[: marks[interval - 1]] + data[marks[interval] :]


def test_a_lost_interval_has_no_bytes(photo):
    marks, lost = marks_of(photo), without(photo, 5)
    resynced = jri.resync(lost)
    assert resynced.data == photo[: marks[4] + 2] + photo[marks[5] :]
    assert resynced.breaks == (jri.Break(at=marks[4], code=0xD5, due=4, skipped=1),)
    assert resynced.ended == "EOI" and resynced.at is None


def test_the_other_intervals_are_in_their_place(photo):
    expected, lost = by_djpeg(photo), without(photo, 5)
    picture = jri.read(lost, resync=True)
    assert [int(it) for it in picture.marks] == [2 if k == 5 else 1 for k in range(19)]
    for mcu in range(150):
        x, y = mcu % 15 * 16, mcu // 15 * 16
        found, wanted = picture.pixels[y : y + 16, x : x + 16], expected[y : y + 16, x : x + 16]
        assert (found == 128).all() if mcu // 8 == 5 else numpy.array_equal(found, wanted)
    assert numpy.array_equal(jri.decode(lost, resync=True), picture.pixels)
    assert numpy.array_equal(jri.decode(lost, layout="rgb", resync=True), picture.pixels)
    assert jri.check(lost, resync=True).report == picture.report and picture.report.damaged == 1
    assert jri.check(lost).report.damaged > 1


def test_a_file_in_step_stays(file):
    resynced = jri.resync(file)
    assert resynced.data == file and resynced.breaks == ()
    assert numpy.array_equal(jri.decode(file, resync=True), by_djpeg(file))


def test_a_file_that_breaks_off(photo):
    at = marks_of(photo)[9]
    resynced = jri.resync(photo[:at])
    assert resynced.data == photo[:at] + b"\xff\xd9" and resynced.ended == "end of file"


def test_more_breaks_than_a_first_call_lists():
    data = bytearray(made(227, 149, ["-grayscale", "-restart", "1B"]))
    marks = marks_of(data)
    for at in marks[::2]:
        data[at + 1] = 0xFE
    breaks = jri.resync(bytes(data)).breaks
    assert len(marks) == 550 and [it.at for it in breaks if it.code == 0xFE] == marks[::2]


def test_mends_the_undamaged_file(photo, tmp_path):
    path = tmp_path / "two.jpg"
    path.write_bytes(spoilt(spoilt(photo, 7), 12))
    mended = jri.mend([spoilt(photo, 3), path])
    assert mended.data == photo and mended.is_sound and mended.damaged == 0
    assert [int(it) for it in mended.choices["copy"]] == [1 if k == 3 else 0 for k in range(19)]
    assert set(mended.choices["mark"]) == {1} and not mended.choices["differs"].any()


def test_mends_copies_out_of_step(photo):
    copies = [without(photo, 5), without(spoilt(photo, 7), 12)]
    mended = jri.mend(copies)
    assert mended.data == photo and mended.is_sound
    assert not jri.mend(iter(copies), resync=False).is_sound
    assert jri.mend([jri.resync(copy).data for copy in copies], resync=False).data == photo


def test_damaged_in_all_copies(photo):
    mended = jri.mend([spoilt(photo, 3), spoilt(photo, 3)])
    assert not mended.is_sound and mended.damaged == 1
    assert mended.data == spoilt(photo, 3) and mended.choices["mark"][3] == 2


def test_refuses_what_are_no_copies(photo, tmp_path):
    path = tmp_path / "other.jpg"
    path.write_bytes(made(17, 9, ["-grayscale"]))
    with pytest.raises(ValueError, match="other.jpg: its header is not that of the first copy"):
        jri.mend([photo, path])
    with pytest.raises(jri.RefusedError, match="copy 1: not a JPEG file") as caught:
        jri.mend([photo, b"GIF89a"])
    assert caught.value.number == 1
    for count in (0, 65):
        with pytest.raises(ValueError, match="from 1 to 64 copies"):
            jri.mend([photo] * count)
    with pytest.raises(TypeError):
        jri.mend("photo.jpg")
    with pytest.raises(jri.RefusedError, match="copy 1"):
        jri.mend([photo, b"GIF89a"], resync=False)


def test_resynchronises_no_refused_file():
    with pytest.raises(jri.RefusedError) as caught:
        jri.resync(b"GIF89a")
    assert caught.value.number == 1
    assert jri.check(b"GIF89a", resync=True).refusal == 1
    with pytest.raises(jri.RefusedError):
        jri.decode(b"", resync=True)

import jri
import numpy
import pytest
from conftest import by_djpeg, laid


@pytest.mark.parametrize("layout", ["rgb", "bgr", "rgbx", "bgrx"])
def test_layouts(file, layout):
    assert numpy.array_equal(jri.decode(file, layout=layout), laid(by_djpeg(file), layout))


@pytest.mark.parametrize("layout", ["bgr", "rgbx"])
def test_lines_that_stand_apart(photo, layout):
    size = len(layout)
    held = numpy.full((149, 230, size), 7, numpy.uint8)
    found = jri.decode(photo, layout=layout, out=held[:, :227])
    assert numpy.array_equal(found, laid(by_djpeg(photo), layout)) and (held[:, 227:] == 7).all()


def test_wrong_layouts(photo):
    with pytest.raises(ValueError):
        jri.decode(photo, layout="cmyk")
    for out in [numpy.empty((149, 227, 4), numpy.uint8), numpy.empty((149, 227, 3), numpy.float32), numpy.empty((149, 454, 3), numpy.uint8)[:, ::2]]:
        with pytest.raises(ValueError):
            jri.decode(photo, layout="bgr", out=out)

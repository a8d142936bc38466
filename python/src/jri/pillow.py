"""Pillow's JPEG pictures by libjri: EXIF data, profiles and sizes by Pillow, and the pixels by libjri if it can.

Files whose component identifiers are R, G and B, without a JFIF or Adobe segment, are left to Pillow: libjpeg reads
them as RGB, and jri as YCbCr (docs/FORMAT.md).
"""

from __future__ import annotations

from typing import Any, Iterator, Optional, Tuple

from PIL import Image, ImageFile, JpegImagePlugin

import jri

# What Pillow's plug-in has in addition to its own stubs, where a checker has these.
_plugin: Any = JpegImagePlugin
_JpegImageFile: Any = JpegImagePlugin.JpegImageFile


_EOI, _SOS, _APP0, _APP14, _TEM = 0xD9, 0xDA, 0xE0, 0xEE, 0x01
#: SOF0 to SOF15, and not DHT, JPG and DAC, which lie between them.
_FRAMES = frozenset(range(0xC0, 0xD0)) - {0xC4, 0xC8, 0xCC}


def _segments(data: bytes) -> Iterator[Tuple[int, bytes]]:
    """Yields the code and the payload of each marker segment before the scan.

    Stops at the first bytes that are not a marker or not a whole segment.
    """
    at = 2
    while data[at : at + 1] == b"\xff":
        while data[at : at + 1] == b"\xff":
            at += 1
        code = data[at] if at < len(data) else _EOI
        if code in (0x00, _TEM, _SOS) or 0xD0 <= code <= _EOI:
            return
        length = int.from_bytes(data[at + 1 : at + 3], "big")
        payload = data[at + 3 : at + 1 + length]
        if length < 2 or len(payload) != length - 2:
            return
        yield code, payload
        at += 1 + length


def is_rgb_by_identifiers(data: bytes) -> bool:
    """Returns whether libjpeg reads a file as RGB for its component identifiers alone.

    They are R, G and B, and the file has no JFIF or Adobe segment as libjpeg knows them.
    """
    identifiers = b""
    for code, payload in _segments(data):
        if code == _APP0 and len(payload) >= 14 and payload.startswith(b"JFIF\0"):
            return False
        if code == _APP14 and len(payload) >= 12 and payload.startswith(b"Adobe"):
            return False
        if code in _FRAMES:
            identifiers = payload[6::3]
    return identifiers == b"RGB"


class JriImageFile(_JpegImageFile):  # type: ignore[misc]
    """A JPEG file whose pixels libjri decodes, if it does, in their full size."""

    _is_scaled = False
    # What Pillow's own classes have.
    fp: Any
    tile: Any

    def draft(self, mode: Optional[str], size: Tuple[int, int]) -> Any:
        drafted = super().draft(mode, size)
        self._is_scaled = self._is_scaled or drafted is not None
        return drafted

    def load(self) -> Any:
        if self.tile and not self._is_scaled and self.mode in ("L", "RGB"):
            pixels = self._decoded()
            if pixels is not None:
                self.im = Image.fromarray(pixels).im
                self.tile = []
                if self._exclusive_fp and self._close_exclusive_fp_after_loading and self.fp is not None:
                    self.fp.close()
                    self.fp = None
        return super().load()

    def _decoded(self) -> Optional[jri.Pixels]:
        """Returns the pixels by libjri, or None if it does not decode the file as Pillow opened it.

        Raises OSError for a damaged file, as Pillow does, unless ImageFile.LOAD_TRUNCATED_IMAGES is set.
        """
        at = self.fp.tell()
        self.fp.seek(0)
        picture, data = None, self.fp.read()
        if not is_rgb_by_identifiers(data):
            try:
                picture = jri.read(data, max_pixels=self.width * self.height)
            except ValueError:
                pass
        if picture is None or picture.pixels.shape[:2] != (self.height, self.width):
            self.fp.seek(at)
            return None
        if picture.report.damaged and not ImageFile.LOAD_TRUNCATED_IMAGES:
            is_cut = picture.report.ended == "end of file"
            raise OSError("image file is truncated" if is_cut else "broken data stream when reading image file")
        pixels = picture.pixels
        return pixels if (pixels.ndim == 2) == (self.mode == "L") else None


def register() -> None:
    """Makes Pillow open JPEG files by this class."""
    Image.register_open("JPEG", _opened, _plugin._accept)


def unregister() -> None:
    """Makes Pillow open JPEG files by its own class again."""
    Image.register_open("JPEG", _plugin.jpeg_factory, _plugin._accept)


def _opened(fp: Any = None, filename: Any = None) -> Any:
    """Returns the file as Pillow's own plug-in opens it, by this class if it has one picture."""
    picture = _plugin.jpeg_factory(fp, filename)
    if type(picture) is not _JpegImageFile:
        return picture
    picture.__class__ = JriImageFile
    return picture

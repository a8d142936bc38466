"""The texts of refusals, and which of them a valid file may have: as jri_check reports them."""

from __future__ import annotations

from typing import Dict, Optional

from ._loaded import library_text

#: An unexpected marker, by its code; and a frame, by its code less that of SOF0.
_MARKER, _FRAME, _SOF0 = 4, 5, 0xC0

#: The markers that only arithmetic-coded and hierarchical files have.
_MARKERS: Dict[int, str] = {
    0xCC: "arithmetic-coded JPEG (DAC) is not supported",
    0xDE: "hierarchical JPEG (DHP) is not supported",
}

#: The kinds of frames that are not hierarchical, by their codes (T.81, table B.1).
_FRAMES: Dict[int, str] = {
    0xC2: "progressive JPEG",
    0xC3: "lossless JPEG",
    0xC9: "arithmetic-coded JPEG",
    0xCA: "arithmetic-coded progressive JPEG",
    0xCB: "arithmetic-coded lossless JPEG",
}

_OTHERS: Dict[int, str] = {
    10: "samples of other than 8 bits are not supported",
    11: "a width or height of 0 (DNL) is not supported",
    12: "more than 268,435,456 pixels are not supported",
    13: "only 1 or 3 components are supported",
    14: "these sampling factors are not supported",
    15: "only one scan of all components is supported",
    17: "tables that are not in the file are not supported",
    18: "more than 1,073,741,824 bytes are not supported",
}


def unsupported_text(number: int, detail: int) -> Optional[str]:
    """Returns what a valid file with this refusal has that jri does not decode; None if no valid file has this refusal."""
    if number == _FRAME:
        return f"{_FRAMES.get(detail, 'hierarchical JPEG')} (SOF{detail - _SOF0}) is not supported"
    return _MARKERS.get(detail) if number == _MARKER else _OTHERS.get(number)


def refusal_text(number: int, detail: int) -> str:
    """Returns why a file is refused: what is not supported, otherwise the text that jri prints."""
    return unsupported_text(number, detail) or library_text(number, detail)

"""Mending: a text without what a load refuses."""
from ctypes import byref, c_size_t, c_ubyte
from typing import NamedTuple

from .library import DONE, TOO_SMALL, Refused, called, text_of
from .records import LeftOut


class Mended(NamedTuple):
    """What stays of a text, and what was left out of it."""
    bytes: bytes
    left_out: list[LeftOut]


def mend(text: bytes) -> Mended:
    """The text without what a load refuses, with an access unit delimiter where two pictures would be taken for one. A text that isn't
    refused stays as it is. What stays isn't refused but for how many access units it has, or where it is empty."""
    needed, count = c_size_t(len(text) + 64), c_size_t(16)
    while True:
        buffer, outs = (c_ubyte * max(needed.value, 1))(), (LeftOut * max(count.value, 1))()
        status = called("mend", *text_of(text), buffer, len(buffer), byref(needed), outs, len(outs), byref(count))
        if status not in (DONE, TOO_SMALL):
            raise Refused(status)
        if status == DONE and count.value <= len(outs):
            return Mended(bytes(buffer[:needed.value]), list(outs[:count.value]))

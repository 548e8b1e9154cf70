"""Byte streams by ITU-T H.264 (Annex B) as README.md limits them: NAL units, access units, and what is refused of a text."""
import re

from cupdaisy.headers import IDR

START = b"\0\0\1"
SLICE, SPS, PPS = 1, 7, 8
SLICES = (SLICE, IDR)
REFUSED_TYPES = (2, 3, 4, 13, 14, 15, 19, 20, 21)
BEFORE_SLICES = (*range(6, 10), *range(14, 19))
# No refusal has the number 12.
REFUSALS = dict(enumerate((
    "Split UnitType ForbiddenBit Sps Pps Switching MixedIdr IdrNotIntra IdrNotReference MixedReference UnitOrder "
    "- TwoPictures TooLarge Memory NoSuchUnit StreamFull IdsSpent").split(), 1))


class Refused(Exception):
    """A text is no access unit, by the number of docs/OUTPUT.md."""

    def __init__(self, number):
        super().__init__(REFUSALS[number])
        self.number = number


def split(text):
    """The NAL units of a byte stream."""
    front, *parts = text.split(START)
    units = [part.rstrip(b"\0") for part in parts]
    if front.strip(b"\0") or not units or not all(units):
        raise Refused(1)
    if any(re.search(rb"\x00\x00[\x00-\x02]|\x00\x00\x03[^\x00-\x03]", unit, re.DOTALL) for unit in units):
        raise Refused(1)
    return units


def type_of(nal):
    return nal[0] & 31


def begins_picture(nal):
    """Whether a slice begins at macroblock 0, by its first code."""
    return len(nal) > 1 and nal[1] >= 128


def cut(nals):
    """The access units of a stream."""
    units, sliced = [], False
    for nal in nals:
        kind = type_of(nal)
        begins = kind in BEFORE_SLICES or kind in SLICES and begins_picture(nal)
        if not units or sliced and begins:
            units.append([])
            sliced = False
        units[-1].append(nal)
        sliced = sliced or kind in SLICES
    return units


def slices_in(nals):
    """The slices among NAL units."""
    return [nal for nal in nals if type_of(nal) in SLICES]


def text_of(nals):
    """The text of NAL units, each after a start code."""
    return b"".join(START + nal for nal in nals)


def texts_of(stream):
    """The texts of a stream's access units."""
    return [text_of(nals) for nals in cut(split(stream))]

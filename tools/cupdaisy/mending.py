"""What `preview mend` writes of a text and tells, by docs/OUTPUT.md: plain and slow."""
import re
from typing import NamedTuple

from cupdaisy.headers import IDR
from cupdaisy.streams import BEFORE_SLICES, PPS, REFUSED_TYPES, SLICES, SPS, START, begins_picture, text_of, type_of
from cupdaisy.syntax import MOST_BYTES, MOST_SLICES, Cut, Value, read_pps, read_sps, type_of_slice

DELIMITER = START + b"\x09\xF0"
FORBIDDEN = re.compile(rb"\x00\x00[\x00-\x02]|\x00\x00\x03[^\x00-\x03]", re.DOTALL)


class Segment(NamedTuple):
    """A NAL unit, the place of its start code, and how many zeros follow it."""
    byte: int
    unit: bytes
    zeros: int


def told(byte, count, why):
    return f"byte {byte}: left out {count} bytes: {why}\n"


def can_be_read(read, nal):
    try:
        read(nal)
    except (Cut, Value):
        return False
    return True


def fault_of(nal):
    """Why a NAL unit is left out by itself, if it is."""
    if not nal:
        return "empty"
    kind, slice_type = type_of(nal), type_of_slice(nal) if type_of(nal) in SLICES else None
    faults = (("forbidden bytes", FORBIDDEN.search(nal)),
              ("forbidden bit", nal[0] & 128),
              (f"type {kind}", kind in REFUSED_TYPES),
              ("unread SPS", kind == SPS and not can_be_read(read_sps, nal)),
              ("unread PPS", kind == PPS and not can_be_read(read_pps, nal)),
              ("switching", slice_type in (3, 4, 8, 9)),
              ("IDR slice that isn't intra", kind == IDR and slice_type in (0, 1, 5, 6)),
              ("IDR slice that isn't a reference", kind == IDR and not nal[0] & 96))
    return next((why for why, holds in faults if holds), None)


def is_of_other(first, nal):
    """Whether a slice can't be of the picture of this first slice, though nothing shows that it isn't."""
    return type_of(first) != type_of(nal) or bool(first[0] & 96) != bool(nal[0] & 96)


class Portion:
    """An access unit, with what is left out in it."""

    def __init__(self, is_delimited):
        self.is_delimited, self.segments = is_delimited, []

    def sound(self):
        return [segment for segment in self.segments if not fault_of(segment.unit)]

    def slices(self):
        return [segment.unit for segment in self.sound() if type_of(segment.unit) in SLICES]

    def after(self, nal):
        """The access unit of the next NAL unit that isn't left out."""
        slices, kind = self.slices(), type_of(nal)
        if slices and (kind in BEFORE_SLICES or kind in SLICES and begins_picture(nal)):
            return Portion(False)
        if slices and kind in SLICES and is_of_other(slices[0], nal):
            return Portion(True)
        return self

    def ended(self):
        """What is written of it, how many NAL units stay, and what is told of it as a whole."""
        sound = self.sound()
        text = text_of(segment.unit for segment in sound)
        delimiter = DELIMITER if self.is_delimited else b""
        if len(delimiter + text) > MOST_BYTES or len(self.slices()) > MOST_SLICES:
            return b"".join(bytes(segment.zeros) for segment in self.segments), 0, told(sound[0].byte, len(text), "too large")
        written = b"".join((START + segment.unit if segment in sound else b"") + bytes(segment.zeros)
                           for segment in self.segments)
        return delimiter + written, len(sound), ""


def mended(text):
    """What is written of a text, and what is told of it."""
    front, *parts = text.split(START)
    if not parts:
        return b"", told(0, len(text), "not a NAL unit") if text else ""
    foreign = front.strip(b"\0")
    lines = [told(len(front) - len(front.lstrip(b"\0")), len(foreign), "not a NAL unit")] if foreign else []
    output, kept, byte, portion = [bytes(len(front) - len(foreign))], 0, len(front), Portion(False)

    def end():
        written, count, line = portion.ended()
        output.append(written)
        lines.append(line)
        return count

    for part in parts:
        unit = part.rstrip(b"\0")
        why = fault_of(unit)
        if why:
            lines.append(told(byte, len(START + unit), why))
        elif portion.after(unit) is not portion:
            kept += end()
            portion = portion.after(unit)
        portion.segments.append(Segment(byte, unit, len(part) - len(unit)))
        byte += len(START + part)
    kept += end()
    return b"".join(output) if kept else b"", "".join(lines)

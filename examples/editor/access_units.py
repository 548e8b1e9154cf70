"""The access units of a byte stream, with what an editor shows of each before anything is planned."""
import re
from typing import NamedTuple

NAL = re.compile(rb"\x00?\x00\x00\x01(.)(.?)", re.DOTALL)
P, B, I = range(3)
IDR_SLICE, SPS, PPS = 5, 7, 8


class Unit(NamedTuple):
    text: bytes
    letter: str    # that of its slices' type: B where one is B, P where one is P, "-" where there is no slice
    is_idr: bool
    is_reference: bool
    sets: bytes    # its parameter sets


def access_units(stream):
    """Each ends where a parameter set or the like comes after a slice, or a slice with the first macroblock (ITU-T H.264, 7.4.1.2.3)."""
    begins, nals, has_slice = [0], [[]], False
    for found in NAL.finditer(stream):
        kind = found[1][0] & 31
        is_slice = 1 <= kind <= 5
        begins_one = found[2] >= b"\x80" if is_slice else 6 <= kind <= 9 or 14 <= kind <= 18
        if has_slice and begins_one:
            begins.append(found.start())
            nals.append([])
            has_slice = False
        has_slice = has_slice or is_slice
        nals[-1].append(found)
    ends = [*begins[1:], len(stream)]
    return [unit_of(stream, begin, end, inside) for begin, end, inside in zip(begins, ends, nals)]


def unit_of_text(text):
    return unit_of(text, 0, len(text), list(NAL.finditer(text)))


def nal_units(stream):
    """What of a stream is the same however its start codes are written, and how many zero bytes stand around them."""
    return [nal.rstrip(b"\x00") for nal in stream.split(b"\x00\x00\x01")]


def unit_of(stream, begin, end, nals):
    heads = [found[1][0] for found in nals]
    slices = [found.start(1) for found, head in zip(nals, heads) if 1 <= head & 31 <= 5]
    kinds = {slice_type(stream[at + 1:at + 12]) for at in slices}
    letter = "B" if B in kinds else "P" if P in kinds else "I" if kinds else "-"
    edges = [*(found.start() for found in nals[1:]), end]
    sets = b"".join(stream[found.start():edge] for found, head, edge in zip(nals, heads, edges) if head & 31 in (SPS, PPS))
    first = stream[slices[0]] if slices else 0
    return Unit(stream[begin:end], letter, first & 31 == IDR_SLICE, bool(first & 96), sets)


def slice_type(header):
    """slice_type mod 5 of a slice header: the second of its numbers in Exp-Golomb code."""
    bits = "".join(f"{byte:08b}" for byte in header.replace(b"\x00\x00\x03", b"\x00\x00"))
    at, number = 0, 0
    for _ in range(2):
        zeros = bits.find("1", at) - at
        if zeros < 0:
            return I
        number = int(bits[at + zeros:at + 2 * zeros + 1] or "1", 2) - 1
        at += 2 * zeros + 1
    return number % 5


def sets_before(units, place):
    """The parameter sets that are sent before a place, each text once: the last of it counts."""
    sent = [unit.sets for unit in reversed(units[:place]) if unit.sets]
    return b"".join(reversed(dict.fromkeys(sent)))

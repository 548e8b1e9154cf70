"""Draws streams whose headers have what encoders don't write: long-term frames, each marking operation, modified lists, weights."""
import pathlib
import random
from typing import NamedTuple

from cupdaisy import processes
from cupdaisy.command_line import add_numbers, parser_of
from cupdaisy.program import program
from cupdaisy.streams import START

P, B, I = 0, 1, 2
PROFILES = (66, 77, 88, 100, 110, 122)
# After so many tries a picture is drawn plainly; after so many the stream is drawn anew.
PLAIN, TRIES = 25, 60


def u(size, number):
    return f"{number:0{size}b}" if size else ""


def ue(number):
    digits = f"{number + 1:b}"
    return "0" * (len(digits) - 1) + digits


def se(number):
    return ue(2 * number - 1 if number > 0 else -2 * number)


def nal(first, bits):
    """A NAL unit after its start code: its first byte, bits and the stop bit, with emulation prevention bytes."""
    bits += "1"
    bits += "0" * (-len(bits) % 8)
    unit, zeros = bytearray([first]), 0
    for place in range(0, len(bits), 8):
        byte = int(bits[place:place + 8], 2)
        if zeros == 2 and byte <= 3:
            unit.append(3)
            zeros = 0
        unit.append(byte)
        zeros = zeros + 1 if byte == 0 else 0
    return START + bytes(unit)


class PictureSet(NamedTuple):
    """What slice headers need of a picture parameter set."""
    entropy: bool
    bottom: bool
    active: list
    weighted: bool
    bipred: int
    qp: int
    deblocking: bool
    redundant: bool


class State(NamedTuple):
    """What is known after a picture."""
    number: int = 0
    previous: int = 0
    idr: int = 0
    is_first: bool = True
    was_reference: bool = True


class Stream:
    """A stream's sets, as they are drawn once, and its pictures one after the other."""

    def __init__(self, rng):
        self.rng = rng
        self.profile = rng.choice(PROFILES)
        self.high = self.profile >= 100
        self.chroma = rng.choice((0, 1)) if self.profile in (100, 110) else rng.choice((0, 1, 2)) if self.profile == 122 else 1
        self.depths = [rng.randint(0, 2), rng.randint(0, 2)] if self.profile >= 110 else [0, 0]
        self.frame_num_bits = rng.choice((4, 4, 5, 8, 16))
        self.count_type = rng.choice((0, 0, 0, 1, 2))
        self.lsb_bits = rng.choice((4, 6, 8, 16))
        self.references = rng.choice((1, 2, 3, 4, 6, 8, 12, 16))
        self.always_zero = rng.random() < 0.3
        self.offsets = [rng.randint(1, 6) for _ in range(rng.choice((0, 1, 2, 5, 255)))]
        self.non_ref, self.top_bottom = rng.randint(-3, 3), rng.randint(-2, 2)
        self.gaps = rng.random() < 0.5
        self.width, self.height = rng.randint(4, 8), rng.randint(4, 8)
        self.sets = []
        self.state = State()

    def matrix(self, size):
        """A scaling list with the flag before it."""
        rng, kind = self.rng, self.rng.random()
        if kind < 0.3:
            return "0"
        if kind < 0.5:
            return "1" + se(-8)    # the default one
        bits, last, until = "1", 8, rng.randint(1, size)
        for _ in range(until):
            value = rng.randint(1, 255)
            bits += se((value - last + 128) % 256 - 128)
            last = value
        return bits + (se((0 - last + 128) % 256 - 128) if until < size else "")    # the rest as the one before

    def matrices(self, eights):
        return "".join(self.matrix(16) for _ in range(6)) + "".join(self.matrix(64) for _ in range(eights))

    def sequence_set(self):
        """seq_parameter_set_data (7.3.2.1.1)."""
        rng = self.rng
        constraint = rng.choice((0, 0x40, 0x80, 0xc0, 0x10, 0x08, 0x04)) if not self.high else 0
        bits = u(8, self.profile) + u(8, constraint) + u(8, rng.choice((31, 40, 51))) + ue(0)
        if self.high:
            bits += ue(self.chroma) + ue(self.depths[0]) + ue(self.depths[1]) + u(1, rng.random() < 0.2)
            has_lists = rng.random() < 0.5
            bits += u(1, has_lists) + (self.matrices(2) if has_lists else "")
        bits += ue(self.frame_num_bits - 4) + ue(self.count_type)
        if self.count_type == 0:
            bits += ue(self.lsb_bits - 4)
        elif self.count_type == 1:
            bits += u(1, self.always_zero) + se(self.non_ref) + se(self.top_bottom) + ue(len(self.offsets))
            bits += "".join(map(se, self.offsets))
        return nal(0x67, bits + ue(self.references) + u(1, self.gaps) + ue(self.width - 1) + ue(self.height - 1) + "1100")

    def some_active(self):
        return [rng_active(self.rng, self.references) for _ in range(2)]

    def picture_set(self, number):
        """pic_parameter_set_rbsp (7.3.2.2)."""
        rng = self.rng
        drawn = PictureSet(
            entropy=rng.random() < 0.5 and self.profile not in (66, 88), bottom=rng.random() < 0.4, active=self.some_active(),
            weighted=rng.random() < 0.5 and self.profile != 66, bipred=rng.choice((0, 1, 1, 2)) if self.profile != 66 else 0,
            qp=rng.randint(-26 - 6 * self.depths[0], 25), deblocking=rng.random() < 0.6,
            redundant=rng.random() < 0.15 and self.profile == 66)
        bits = ue(number) + ue(0) + u(1, drawn.entropy) + u(1, drawn.bottom) + ue(0)
        bits += ue(drawn.active[0] - 1) + ue(drawn.active[1] - 1) + u(1, drawn.weighted) + u(2, drawn.bipred)
        bits += se(drawn.qp) + se(rng.randint(-26, 25)) + se(rng.randint(-12, 12))
        bits += u(1, drawn.deblocking) + u(1, rng.random() < 0.3) + u(1, drawn.redundant)
        if self.high and rng.random() < 0.7:
            eight, has_lists = rng.random() < 0.5, rng.random() < 0.5
            bits += u(1, eight) + u(1, has_lists) + (self.matrices(2 if eight else 0) if has_lists else "") + se(rng.randint(-12, 12))
        self.sets.append(drawn)
        return nal(0x68, bits)

    def modification(self, active):
        """ref_pic_list_modification of a list (7.3.3.1)."""
        rng = self.rng
        if rng.random() < 0.6:
            return "0"
        return "1" + "".join(ue(rng.choice((0, 0, 1, 2))) + ue(rng.randint(0, 3)) for _ in range(rng.randint(1, min(4, active + 1)))) + ue(3)

    def weights(self, kind, active):
        """pred_weight_table (7.3.3.2); the sums of two weights may not be over 127 (8.4.2.3)."""
        rng = self.rng
        bits = ue(rng.randint(0, 7)) + (ue(rng.randint(0, 7)) if self.chroma else "")
        for count in active[:2 if kind == B else 1]:
            for _ in range(count):
                for values in (1, 2) if self.chroma else (1,):
                    bits += ("1" + "".join(se(rng.randint(-60, 60)) + se(rng.randint(-128, 127)) for _ in range(values))
                             if rng.random() < 0.5 else "0")
        return bits

    def marking(self, is_idr, is_plain):
        """dec_ref_pic_marking (7.3.3.3), and whether it has operation 5."""
        rng = self.rng
        if is_idr:
            return u(1, rng.random() < 0.3) + u(1, rng.random() < 0.4), False
        if is_plain or rng.random() < 0.5:
            return "0", False
        bits, resets = "1", False
        for _ in range(rng.randint(1, 4)):
            kind = rng.choice((1, 2, 3, 3, 4, 4, 6, 6, 5) if rng.random() < 0.15 else (1, 2, 3, 3, 4, 6))
            resets = resets or kind == 5
            bits += ue(kind)
            bits += ue(rng.randint(0, 3)) if kind in (1, 3) else ""
            bits += ue(rng.randint(0, 2)) if kind in (2, 3, 6) else ""
            bits += ue(rng.randint(0, 4)) if kind == 4 else ""
        return bits + ue(0), resets

    def counts(self, pps, count, shifts, bottom):
        """What a slice header has of the picture order count (7.3.3)."""
        if self.count_type == 0:
            return u(self.lsb_bits, count % (1 << self.lsb_bits)) + (se(bottom) if pps.bottom else "")
        if self.count_type == 1 and not self.always_zero:
            return se(shifts) + (se(bottom) if pps.bottom else "")
        return ""

    def slice_bits(self, first, kind, pps_id, common):
        """A slice header (7.3.3), and random bits behind it."""
        rng, pps, active = self.rng, self.sets[pps_id], list(self.sets[pps_id].active)
        bits = ue(first) + ue(kind) + ue(pps_id) + u(self.frame_num_bits, common["number"])
        bits += ue(common["idr"]) if common["is_idr"] else ""
        bits += self.counts(pps, common["count"], common["shifts"], common["bottom"])
        bits += ue(0) if pps.redundant else ""
        bits += u(1, rng.random() < 0.5) if kind == B else ""
        if kind != I:
            overrides = rng.random() < 0.5
            bits += u(1, overrides)
            if overrides:
                active = [rng.randint(1, 16), rng.randint(1, 16)] if rng.random() < 0.1 else self.some_active()
                bits += ue(active[0] - 1) + (ue(active[1] - 1) if kind == B else "")
            bits += self.modification(active[0]) + (self.modification(active[1]) if kind == B else "")
        if kind == P and pps.weighted or kind == B and pps.bipred == 1:
            bits += self.weights(kind, active)
        bits += common["mark"] if common["is_reference"] else ""
        bits += ue(rng.randint(0, 2)) if pps.entropy and kind != I else ""
        bits += se(rng.randint(-6 * self.depths[0], 51) - 26 - pps.qp)
        if pps.deblocking:
            idc = rng.randint(0, 2)
            bits += ue(idc) + (se(rng.randint(-6, 6)) + se(rng.randint(-6, 6)) if idc != 1 else "")
        bits += "1" * (-len(bits) % 8 if pps.entropy else 0)
        return bits + "".join(u(8, rng.randint(0, 255)) for _ in range(rng.randint(2, 40)))

    def picture(self, is_plain):
        """A picture, and the state after it."""
        rng, state = self.rng, self.state
        is_idr = state.is_first or rng.random() < 0.03
        text = self.sequence_set() + b"".join(self.picture_set(i) for i in range(3)) if state.is_first else b""
        pps_id, is_mixed = rng.randint(0, 2), not is_plain and rng.random() < 0.04
        has_b = self.profile != 66 and not is_plain
        is_reference = is_idr or is_plain or self.count_type == 2 and not state.was_reference or rng.random() < 0.6
        number = 0 if is_idr else state.number + (1 if state.was_reference else 0)
        if self.gaps and not is_idr and not is_plain and rng.random() < 0.05 and state.was_reference:
            number += rng.randint(1, 2)
        number %= 1 << self.frame_num_bits
        idr = (state.idr + 1) % 1000 if is_idr else state.idr
        count = 0 if is_idr else state.previous + rng.choice((2, 2, 4, 6, -2, -4) if has_b else (2, 4))
        mark, resets = self.marking(is_idr, is_plain)
        resets = resets and is_reference
        common = {"number": number, "idr": idr, "is_idr": is_idr, "count": count, "mark": mark, "is_reference": is_reference,
                  "shifts": 0 if is_idr or is_plain else rng.randint(-2, 2), "bottom": rng.randint(-1, 1)}
        kinds = (I,) if is_idr else (P,) if is_plain else (P, P, I, B, B, B) if has_b else (P, P, P, I)
        reference_bits = rng.randint(1, 3) if is_reference else 0
        for first in [0] + sorted(rng.sample(range(1, self.width * self.height), rng.choice((0, 0, 0, 1, 2, 7)))):
            bits = self.slice_bits(first, rng.choice(kinds), rng.randint(0, 2) if is_mixed else pps_id, common)
            text += nal(reference_bits << 5 | (5 if is_idr else 1), bits)
        previous = 0 if is_idr or resets else max(count, state.previous)
        return text, State(0 if resets else number, previous, idr, False, is_reference)


def rng_active(rng, references):
    return rng.randint(1, min(16, references))


def units_of(text):
    """The lines of `plan` of a stream, one a unit; none where it is refused."""
    ran = processes.run([program(), "plan", "-"], text)
    return [line.split() for line in ran.output.decode().splitlines() if line.startswith("unit")] if ran.status == 0 else []


def stream_of(rng, pictures):
    """A stream of so many pictures, each of them valid."""
    while True:
        stream, text, units, tries = Stream(rng), b"", 0, 0
        while units < pictures and tries < TRIES:
            more, state = stream.picture(tries > PLAIN)
            lines = units_of(text + more)
            if len(lines) == units + 1 and lines[-1][2] == "position":
                text, units, tries, stream.state = text + more, units + 1, 0, state
            else:
                tries += 1
                if stream.state.is_first:
                    stream.sets = []
        if units == pictures:
            return text


def draw(folder, streams, pictures, seed):
    """Draws streams into a folder; their files."""
    rng = random.Random(seed)
    folder.mkdir(parents=True, exist_ok=True)
    files = [folder / f"drawn-{number}.264" for number in range(streams)]
    for file in files:
        file.write_bytes(stream_of(rng, pictures))
    return files


def main(doc):
    parser = parser_of(doc)
    add_numbers(parser, streams=20, pictures=30, seed=1)
    parser.add_argument("folder", type=pathlib.Path, metavar="FOLDER")
    options = parser.parse_args()
    draw(options.folder, options.streams, options.pictures, options.seed)
    return 0

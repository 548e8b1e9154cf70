"""Streams that the benchmarks make bit by bit: parameter sets, and pictures of a few slices."""
import measure

P, B, I = 0, 1, 7
SLICES = 256


def u(size, number):
    """A number of so many bits."""
    return f"{number:0{size}b}"


def ue(number):
    """The Exp-Golomb code of a number (9.1)."""
    digits = f"{number + 1:b}"
    return "0" * (len(digits) - 1) + digits


def nal(first, bits):
    """A NAL unit after a start code: its first byte, then these bits, a stop bit, and zeros to a whole byte."""
    bits += "1"
    bits += "0" * (-len(bits) % 8)
    unit, zeros = bytearray([first]), 0
    for place in range(0, len(bits), 8):
        byte = int(bits[place:place + 8], 2)
        if zeros == 2 and byte <= 3:
            unit.append(3)
            zeros = 0
        unit.append(byte)
        zeros = zeros + 1 if byte == 0 else 0
    return measure.START + bytes(unit)


def sets(references, width):
    """Parameter sets: Main profile, count type 0, pictures of width times width macroblocks."""
    sps = (u(8, 77) + u(8, 0) + u(8, 10) + ue(0) + ue(0) + ue(0) + ue(4) + ue(max(references, 2)) + "0"
           + ue(width - 1) + ue(width - 1) + "1100")
    pps = ue(0) + ue(0) + "00" + ue(0) + ue(references - 1) + ue(references - 1) + "000" + ue(0) * 3 + "000"
    return nal(0x67, sps) + nal(0x68, pps)


def picture(slice_type, frame_num, count, first=0, is_reference=True):
    """A slice from a macroblock on: of an IDR picture where it is I, and else with all flags 0."""
    front = ue(first) + ue(slice_type) + ue(0) + u(4, frame_num % 16)
    if slice_type == I:
        return nal(0x65, front + ue(0) + u(8, count) + "00" + ue(0))
    rest = "1000" if slice_type == B else "00"
    return nal(0x41 if is_reference else 0x01, front + u(8, count % 256) + rest + "0" * is_reference + ue(0))


def p_pictures(references):
    """Streams of P pictures with lists of so many entries."""
    def stream(units):
        return sets(references, 1) + picture(I, 0, 0) + b"".join(picture(P, i, 2 * i) for i in range(1, units))
    return stream


def b_pictures(references):
    """Streams of B pictures with lists of so many entries, after the pictures that these refer to."""
    def stream(units):
        frames = max(references, 2)
        later = b"".join(picture(P, i, 2 + 2 * i) for i in range(1, frames))
        between = picture(B, frames, 2, is_reference=False) * (units - frames)
        return sets(references, 1) + picture(I, 0, 0) + later + between
    return stream


def sliced(pictures):
    """Pictures whose slices have a macroblock each."""
    first = sets(1, 16) + b"".join(picture(I, 0, 0, at) for at in range(SLICES))
    return first + b"".join(picture(P, i, 2 * i, at) for i in range(1, pictures) for at in range(SLICES))

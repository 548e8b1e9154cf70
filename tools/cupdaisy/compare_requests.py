"""Compares the structs that the C interface fills with the kernel's header and with the pictures that are shown."""
import hashlib
import itertools
import pathlib
import re
import struct
import subprocess
from typing import NamedTuple

from cupdaisy.command_line import NOT_INSTALLED, parser_of
from cupdaisy.kernel_structs import CONTROLS, HEADER, Differs, Memory, record, shown_by_run
from cupdaisy.processes import printed
from cupdaisy.program import PREVIEW
from cupdaisy.streams import START, cut, slices_in, split
from cupdaisy.workspace import TOP

LINE = re.compile(r"^unit (\d+) slice (\d+) (\w+) ((?:[0-9a-f]{2})+)$")


class Line(NamedTuple):
    unit: int
    slice: int
    control: str
    text: bytes


def lines_of(printer, file):
    """The lines of each slice of each unit."""
    units = {}
    for text in printed([printer, file]).splitlines():
        found = LINE.match(text)
        if not found:
            raise Differs(f"a line is {text[:80]!r}")
        line = Line(int(found[1]), int(found[2]), found[3], bytes.fromhex(found[4]))
        slices = units.setdefault(line.unit, [])
        if line.slice == len(slices):
            slices.append([])
        if line.slice + 1 != len(slices):
            raise Differs(f"unit {line.unit} has slice {line.slice} after {len(slices)} slices")
        slices[-1].append(line)
    return units


def record_of(memory, lines, text, pictures):
    """The record of a request, of which its picture is the digest."""
    names = [line.control for line in lines]
    if names not in ([*CONTROLS], [control for control in CONTROLS if control != "pred_weights"]):
        raise Differs(f"a slice has {names}")
    values, form = {}, b""
    for control in CONTROLS:
        found = next((line.text for line in lines if line.control == control), None)
        if control == "pred_weights":
            form += b"\0" if found is None else b"\1"
        if found is not None:
            values[control], more = memory.read(f"v4l2_ctrl_h264_{control}", found)
            form += more
    return record(form, values["slice_params"], values["decode_params"]["dpb"], text, pictures)


def differences(memory, units, nals, answers):
    """A line for each unit whose structs don't give the picture that is shown."""
    pictures = {}
    for number, (unit, answer) in enumerate(itertools.zip_longest(nals, answers, fillvalue=""), 1):
        texts = [START + nal for nal in slices_in(unit)]
        if number not in units:
            if not answer.startswith((f"show {number} fault ", f"show {number} empty")):
                yield f"unit {number} has no structs, and {answer!r}"
            continue
        try:
            if len(units[number]) != len(texts):
                raise Differs(f"{len(units[number])} requests for {len(texts)} slices")
            records = b"".join(record_of(memory, lines, text, pictures) for lines, text in zip(units[number], texts))
        except (Differs, KeyError, IndexError, struct.error) as fault:
            yield f"unit {number}: {fault!r}"
            continue
        pictures[1000 * number] = hashlib.sha256(records).digest()
        if answer != f"show {number} ready {pictures[1000 * number].hex()}":
            yield f"unit {number} has the picture {pictures[1000 * number].hex()}, and {answer!r}"


def compare(options, memory, file):
    """Prints what was found in one file; whether nothing differs."""
    nals = cut(split(pathlib.Path(file).read_bytes()))
    try:
        units = lines_of(options.printer, file)
    except (Differs, subprocess.CalledProcessError) as fault:
        print(f"{file}: {fault}")
        return False
    found = list(differences(memory, units, nals, shown_by_run(options.program, file, len(nals))))
    for each in found[:10]:
        print(f"{file}: {each}")
    print(f"{file}: {len(nals)} units compared, {sum(map(len, units.values()))} requests, {len(found)} differences")
    return not found


def main(doc):
    parser = parser_of(doc)
    parser.add_argument("--program", default=PREVIEW)
    parser.add_argument("--printer", default=str(TOP / "build" / "print_requests"))
    parser.add_argument("--header", default=HEADER)
    parser.add_argument("files", nargs="+", metavar="FILE")
    options = parser.parse_args()
    if not pathlib.Path(options.header).exists():
        print(f"{options.header} isn't there: nothing was compared")
        return NOT_INSTALLED
    memory = Memory(pathlib.Path(options.header).read_text())
    return 0 if all([compare(options, memory, file) for file in options.files]) else 1

"""Compares the device's pictures with those that are computed anew from a trace."""
import sys

from cupdaisy import decode_stream, stand_in
from cupdaisy.command_line import NOT_INSTALLED, are_installed
from cupdaisy.processes import printed


def decoded(file):
    """The pictures of the units as the device gives them, by their ids."""
    lines = printed([decode_stream.program(), file]).splitlines()
    return {int(number): bytes.fromhex(digest) for word, number, digest, *_ in map(str.split, lines) if word == "unit"}


def compare(file):
    """Prints what was found in one file; whether all is equal."""
    try:
        expected = stand_in.pictures(file)
    except stand_in.Untraced as fault:
        print(f"{file}: {fault}: nothing was compared")
        return False
    found = decoded(file)
    differing = [unit for unit, picture in enumerate(expected, 1) if found.get(unit) != picture]
    for unit in differing[:10]:
        print(f"{file}: unit {unit}: {found[unit].hex() if unit in found else 'no picture'}, "
              f"expected {expected[unit - 1].hex()}")
    more = len(found.keys() - range(1, len(expected) + 1))
    print(f"{file}: {len(expected)} pictures compared, {len(differing)} differences, {more} beside them")
    return not differing and not more


def main(doc):
    files = sys.argv[1:]
    if not files:
        sys.exit(doc)
    if not are_installed("ffmpeg"):
        print("ffmpeg is not installed: nothing was compared")
        return NOT_INSTALLED
    return 0 if all([compare(file) for file in files]) else 1

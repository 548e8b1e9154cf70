"""Holds what is said of doubt against a plain model, and against the pixels that ffmpeg decodes."""
import collections
import json
import pathlib
import random
import re
import tempfile

from cupdaisy import doubts
from cupdaisy.command_line import NOT_INSTALLED, add_numbers, are_installed, parser_of
from cupdaisy.processes import printed_anyway, printed_with_errors
from cupdaisy.program import PREVIEW
from cupdaisy.streams import cut, split, text_of

DECODED = "ffmpeg -hide_banner -threads 1 -flags +output_corrupt -flags2 +showall -i"
SHOWN = "-vsync passthrough -vf showinfo -f null -"
MOST_TAKEN = 3


def pixels(file, texts):
    """The checksum of each unit's picture, by the unit's index; none of one that ffmpeg doesn't show."""
    begins, at = {}, 0
    for index, text in enumerate(texts):
        begins[at] = index
        at += len(text)
    _, said = printed_with_errors([*DECODED.split(), file, *SHOWN.split()])
    return {begins[int(place)]: checksum
            for place, checksum in re.findall(r"pos: *(\d+) .*? checksum:(\w+)", said) if int(place) in begins}


def planned(file):
    return [json.loads(line) for line in printed_anyway([PREVIEW, "plan", "--json", file]).splitlines()]


def of_program(line):
    """What the program tells of a unit: the break that it follows, and whether it is in doubt."""
    return line.get("follows"), line.get("in_doubt", False)


class Copies:
    """Copies of streams without some units, and what was found in them."""

    def __init__(self, folder, seed):
        self.file, self.random = folder / "copy.264", random.Random(seed)
        self.found, self.failures = collections.Counter(), 0

    def fail(self, why):
        self.failures += 1
        print(why)

    def drawn(self, units):
        """The indices of the units that stay."""
        taken = self.random.sample(range(1, len(units)), min(self.random.randint(1, MOST_TAKEN), len(units) - 1))
        return [index for index in range(len(units)) if index not in taken]

    def written(self, units):
        """The pixels of these units as a file."""
        texts = [text_of(nals) for nals in units]
        self.file.write_bytes(b"".join(texts))
        return pixels(self.file, texts)

    def compare(self, name, count):
        """Compares so many copies of a stream."""
        units = cut(split(pathlib.Path(name).read_bytes()))
        whole = self.written(units)
        for _ in range(count):
            kept = self.drawn(units)
            rest = [units[index] for index in kept]
            here = self.written(rest)
            where = f"{name} without {', '.join(str(index + 1) for index in range(len(units)) if index not in kept)}"
            self.hold(where, planned(self.file), rest, {at: (whole.get(index), here.get(at)) for at, index in enumerate(kept)})
        return count

    def hold(self, where, lines, units, pictures):
        """Holds the lines of a copy against the model, and its pictures against those of the file."""
        wanted = list(doubts.told(lines, units))
        if [of_program(line) for line in lines] != wanted:
            self.fail(f"{where}: not as the model says: " + next(
                f"unit {line['unit']} {of_program(line)}, not {told}" for line, told in zip(lines, wanted) if of_program(line) != told))
            return
        self.found["copies"] += 1
        for at, (line, (follows, in_doubt)) in enumerate(zip(lines, wanted)):
            of_file, of_copy = pictures[at]
            if of_file is None or of_copy is None:
                self.found["not shown"] += 1
            elif of_file == of_copy:
                self.found["doubted and the same"] += in_doubt
            else:
                self.found["differ"] += 1
                self.found[self.reason(where, line, follows, in_doubt)] += 1

    def reason(self, where, line, follows, in_doubt):
        """Why a picture may differ."""
        if "fault" in line:
            return "with a fault"
        if in_doubt:
            return "in doubt"
        if follows is None:
            return "no break shows"
        self.fail(f"{where}: the picture of unit {line['unit']} differs, and isn't in doubt")
        return "failed"


def main(doc):
    parser = parser_of(doc)
    add_numbers(parser, copies=10, seed=1)
    parser.add_argument("files", metavar="FILE", nargs="+")
    options = parser.parse_args()
    if not are_installed("ffmpeg"):
        print("ffmpeg is not installed: nothing was compared")
        return NOT_INSTALLED
    with tempfile.TemporaryDirectory() as name:
        copies = Copies(pathlib.Path(name), options.seed)
        for file in options.files:
            copies.compare(file, options.copies)
    found = copies.found
    print(f"{found['copies']} copies of {len(options.files)} streams: {found['differ']} pictures differ, {found['in doubt']} in doubt, "
          f"{found['with a fault']} with a fault, {found['no break shows']} where no break shows, {found['failed']} failures; "
          f"{found['doubted and the same']} in doubt are the same, {found['not shown']} aren't shown by ffmpeg")
    return 1 if copies.failures else 0

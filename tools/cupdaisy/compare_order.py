"""Compares output positions with the order in which ffmpeg shows frames."""
import re

from cupdaisy.command_line import NOT_INSTALLED, are_installed, planner_of
from cupdaisy.processes import printed_anyway

FRAMES = ("ffprobe -v error -threads 1 -f h264 -select_streams v"
          " -show_entries frame=coded_picture_number -of csv=p=0").split()


def planned(command, file):
    """For each unit its position, None at a fault; no units where the file is refused."""
    units = re.findall(r"^unit \d+ (?:position (\d+)|fault)", printed_anyway([*command, file]), re.MULTILINE)
    return [int(position) if position else None for position in units]


def shown(file):
    """The coded picture numbers of the frames in output order; none where ffprobe has none."""
    return [int(number) for number in re.findall(r"^\d+", printed_anyway([*FRAMES, file]), re.MULTILINE)]


def compare(command, file):
    """Prints what was found in one file; its exit status."""
    units, frames = planned(command, file), shown(file)
    if not frames:
        print(f"{file}: ffprobe prints no coded picture numbers")
        return NOT_INSTALLED
    if not units or None in units:
        print(f"{file}: refused, or with a fault in {units.count(None)} of {len(units)} units")
        return 1
    order = sorted(range(len(units)), key=units.__getitem__)
    found = [k for k, (unit, frame) in enumerate(zip(order, frames)) if unit != frame]
    for k in found[:10]:
        print(f"{file}: at position {k} is unit {order[k] + 1}, by ffprobe unit {frames[k] + 1}")
    if len(order) != len(frames):
        print(f"{file}: {len(order)} units, {len(frames)} frames by ffprobe")
    moved = sum(position != place for place, position in enumerate(units))
    print(f"{file}: {len(units)} units, {moved} of them reordered, {len(found)} differences")
    return 0 if order == frames else 1


def main(doc):
    options = planner_of(doc)
    if not are_installed("ffprobe"):
        print("ffprobe is not installed: nothing was compared")
        return NOT_INSTALLED
    statuses = [compare(options.planner, file) for file in options.files]
    return 1 if 1 in statuses else max(statuses)

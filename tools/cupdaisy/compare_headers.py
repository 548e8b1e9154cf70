"""Compares slice headers with those that ffmpeg traces."""
import re

from cupdaisy import traces
from cupdaisy.command_line import NOT_INSTALLED, are_installed, planner_of
from cupdaisy.processes import printed_anyway

UNIT = re.compile(r"^unit \d+ (?:position|fault \d+ (\w+))")
REQUEST = re.compile(r"^request \d+\.\d+ ts \d+ bits (\d+) type (\d) frame (\d+) ")


def traced(file):
    """For each packet, the (type, frame_num, bits) of each slice in ffmpeg's trace."""
    return [[(unit.get("slice_type", -1) % 5, unit.get("frame_num", -1), unit.end()) for unit in packet
             if unit.kind == "Slice Header"] for packet in traces.traced(file)]


def planned(command, file):
    """For each unit, its slices as in `traced`, or the name of its fault; or the refusal of the file."""
    units = []
    for line in printed_anyway([*command, file]).splitlines():
        unit, request = UNIT.match(line), REQUEST.match(line)
        if unit:
            units.append(unit.group(1) or [])
        elif request:
            bits, slice_type, frame_num = map(int, request.groups())
            units[-1].append((slice_type, frame_num, bits))
        else:
            return line
    return units or "nothing printed"


def differences(units, packets):
    """Says each difference between units and packets."""
    if len(units) != len(packets):
        yield f"{len(units)} units, {len(packets)} packets by ffmpeg"
    for number, (unit, packet) in enumerate(zip(units, packets), 1):
        if unit != packet and not isinstance(unit, str):
            yield f"unit {number}: (type, frame_num, bits) {unit}, by ffmpeg {packet}"


def compare(command, file):
    """Prints what was found in one file; whether all is equal."""
    units = planned(command, file)
    if isinstance(units, str):
        print(f"{file}: {units}")
        return False
    found = list(differences(units, traced(file)))
    for text in found[:10]:
        print(f"{file}: {text}")
    faults = [unit for unit in units if isinstance(unit, str)]
    slices = sum(len(unit) for unit in units if not isinstance(unit, str))
    names = ", ".join(f"{faults.count(name)} {name}" for name in sorted(set(faults)))
    print(f"{file}: {len(units)} units, {slices} slices compared, {len(found)} differences, "
          f"{len(faults)} units with a fault{': ' + names if names else ''}")
    return not found


def main(doc):
    options = planner_of(doc)
    if not are_installed("ffmpeg"):
        print("ffmpeg is not installed: nothing was compared")
        return NOT_INSTALLED
    return 0 if all([compare(options.planner, file) for file in options.files]) else 1

"""What ffmpeg's trace_headers filter prints of a stream: parameter sets and slice headers, field by field."""
import re
import subprocess

TRACE = "ffmpeg -hide_banner -nostats -nostdin -v repeat+info -f h264 -i".split()
FILTER = "-copyinkf -c copy -bsf:v trace_headers -f null -".split()
LINE = re.compile(r"^\[trace_headers @ \w+\] (.*)$")
FIELD = re.compile(r"^(\d+) +(\S+) +([01]+) = (-?\d+)$")


class Traced:
    """A NAL unit of the trace: its fields by name, those that are absent being 0, and all of them in order."""

    def __init__(self, kind):
        self.kind, self.fields = kind, []

    def add(self, place, name, bits, value):
        if name != "cabac_alignment_one_bit":
            self.fields.append((name, value, bits, place + bits))

    def __getitem__(self, name):
        return self.get(name, 0)

    def get(self, name, absent):
        return next((value for field, value, _, _ in self.fields if field == name), absent)

    def __contains__(self, name):
        return any(field == name for field, _, _, _ in self.fields)

    def end(self):
        """The place of the bit after the last field."""
        return self.fields[-1][3] if self.fields else 0


def traced(file):
    """For each access unit, its parameter sets and slice headers."""
    packets, unit = [], None
    log = subprocess.Popen(TRACE + [str(file)] + FILTER, stderr=subprocess.PIPE, text=True, errors="replace")
    for line in log.stderr:
        found = LINE.match(line.rstrip())
        field = found and FIELD.match(found[1])
        if field and unit:
            place, name, bits, value = field.groups()
            unit.add(int(place), name, len(bits), int(value))
        elif found and not field:
            unit = Traced(found[1])
            if unit.kind.startswith("Packet: "):
                packets.append([])
            elif packets:
                packets[-1].append(unit)
    log.wait()
    return packets

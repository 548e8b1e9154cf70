"""A run of examples/v4l2_request in the guest, and what the kernel was told by it, held against `preview plan --json`."""
import functools
import json
import pathlib
import re
from typing import NamedTuple

from cupdaisy import frame_places, kernel_structs, processes
from cupdaisy.kernel_trace import formats_of, requests_of
from cupdaisy.program import PREVIEW
from cupdaisy.streams import START, cut, slices_in, split
from cupdaisy.workspace import TOP

HOST = TOP / "build" / "v4l2_request"
SLICE_CONTROLS = ("v4l2_ctrl_h264_slice_params", "v4l2_ctrl_h264_pred_weights")
PFRAME, BFRAME = 8, 16
# By slice_type: P, B, I.
FRAME_FLAGS = (PFRAME, BFRAME, 0)
VALID, ERROR = 1, 0x40
# The host's status where it left pictures out.
LEFT_OUT = 3
BAD_WORDS = ("WARNING", "BUG:", "Oops", "refused", "invalid", "Failed")
MEMORY = kernel_structs.Memory(pathlib.Path(kernel_structs.HEADER).read_text()) if pathlib.Path(kernel_structs.HEADER).exists() else None


class Mode(NamedTuple):
    """How the host plays a stream: by which words, and whether the kernel gets the surfaces late."""
    words: str = ""
    is_slow: bool = False

    @property
    def is_frame_based(self):
        return "--frame-based" in self.words

    @property
    def start(self):
        return b"" if "--no-start-code" in self.words else START


class Step(NamedTuple):
    """A request that the host without a device would make."""
    unit: int
    slice: int
    capture: int
    bytes: int
    timestamp: int
    is_held: bool
    surfaces: dict    # what each surface has, when this one is decoded: the timestamp of its decode, and the unit


def job_line(name, file, mode, **environment):
    """The line of a run for the guest, of a file that it shares."""
    told = {"TOLD_SLOW": "1"} if mode.is_slow else {}
    words = [f"{variable}={value}" for variable, value in (told | environment).items()]
    return " ".join([name, "env", *words, "v4l2_request", f"/shared/{file}", *mode.words.split(), "--video", "/dev/video0",
                     "--media", "/dev/media0"])


def steps_of(text):
    """The requests of a host without a device, by the calls that it prints."""
    steps, surfaces, unit, capture, index = [], {}, None, None, 0
    for line in text.splitlines():
        words = line.split()
        if words[0] == "job":
            unit, index = int(words[3]), 0
        elif line.startswith("VIDIOC_REQBUFS CAPTURE"):
            surfaces = {}
        elif line.startswith("VIDIOC_QBUF CAPTURE"):
            capture = int(words[3])
            surfaces = {place: held for place, held in surfaces.items() if place != capture}
        elif line.startswith("VIDIOC_QBUF OUTPUT"):
            said = dict(zip(words[2::2], map(int, words[3::2])))
            steps.append(Step(unit, index, capture, said["bytes"], said["timestamp"], said["hold"] == 1, surfaces))
            index += 1
            if not said["hold"]:
                surfaces = surfaces | {capture: (said["timestamp"], unit)}
    return steps


class Stream:
    """What has to come of a stream: its plans, its slices, and the names of its pictures."""

    def __init__(self, file):
        self.file = file
        lines = processes.printed_anyway([PREVIEW, "plan", "--json", str(file)]).splitlines()
        self.plans = {plan["unit"]: plan for plan in map(json.loads, lines)}
        self.slices = [slices_in(nals) for nals in cut(split(file.read_bytes()))]
        shown = [line.split() for line in kernel_structs.shown_by_run(PREVIEW, file, len(self.slices))]
        self.names = {int(words[1]): words[3] for words in shown if words[2] == "ready"}
        # what is kept goes with the stream
        self.played, self.left_out, self.controls = map(functools.cache, (self.played, self.left_out, self.controls))

    def played(self, words):
        """How the host without a device ends, and the requests that it would make."""
        ran = processes.run([HOST, self.file, *words.split()])
        return ran.status, steps_of(ran.output.decode())

    def left_out(self, is_frame_based, start):
        """The pictures that can't be decoded, where a request has the whole picture: those with slices under several PPSs, those with
        several slices without start codes, and those that are made of such ones."""
        units = set()
        for unit in sorted(self.names) if is_frame_based else ():
            params = [self.controls(unit, index) for index in range(len(self.slices[unit - 1]))]
            sets = {each["v4l2_ctrl_h264_pps"]["pic_parameter_set_id"] for each in params}
            if len(sets) > 1 or len(params) > 1 and not start or units & {named for each in params for named in named_by(each)}:
                units.add(unit)
        return {self.names[unit] for unit in units}

    def controls(self, unit, index):
        """The controls of a slice, with flags as numbers."""
        request = self.plans[unit]["requests"][index]
        return {name: numbered(value) for name, value in request.items() if name.startswith("v4l2_ctrl_")}


def named_by(controls):
    """The units that the lists of a slice name."""
    dpb = controls["v4l2_ctrl_h264_decode_params"]["dpb"]
    params = controls["v4l2_ctrl_h264_slice_params"]
    return {dpb[entry["index"]]["reference_ts"] // 1000 for which in (0, 1) for entry in params[f"ref_pic_list{which}"]
            if entry["fields"]}


def numbered(value):
    """With the names of flags as numbers."""
    if isinstance(value, dict):
        return {name: numbered(member) for name, member in value.items()}
    if isinstance(value, list):
        return [numbered(member) for member in value]
    return sum(MEMORY.numbers[name] for name in value.split("|") if name) if isinstance(value, str) else value


@functools.lru_cache(4096)
def read(control, text):
    """The members of a traced struct but the reserved ones, and how many they are."""
    value = without_reserved(MEMORY.read(control, text)[0])
    return value, count_of(value)


def without_reserved(value):
    if isinstance(value, dict):
        return {name: without_reserved(member) for name, member in value.items() if name != "reserved"}
    return list(map(without_reserved, value)) if isinstance(value, list) else value


def count_of(value):
    if isinstance(value, dict):
        return sum(map(count_of, value.values()))
    return sum(map(count_of, value)) if isinstance(value, list) else 1


def differences(wanted, found, path):
    """A line for each member that differs."""
    if isinstance(wanted, dict) and isinstance(found, dict) and wanted.keys() == found.keys():
        return [line for name in wanted for line in differences(wanted[name], found[name], f"{path}.{name}")]
    if isinstance(wanted, list) and isinstance(found, list) and len(wanted) == len(found):
        return [line for i, value in enumerate(wanted) for line in differences(value, found[i], f"{path}[{i}]")]
    return [] if wanted == found else [f"{path} is {found}, and has to be {wanted}"]


class Job:
    """A run, by its name in the folder that the guest left."""

    def __init__(self, folder, name, stream, mode):
        self.out, self.name, self.stream, self.mode = folder / "out", name, stream, mode
        self.faults, self.requests, self.members, self.in_flight = [], 0, 0, 0
        self.calls, self.frames = [], []

    def read(self, end):
        return (self.out / f"{self.name}.{end}").read_bytes()

    def expect(self, is_so, text):
        if not is_so:
            self.faults.append(text)

    @property
    def is_refused(self):
        return any("FAILED" in line for line in self.calls)

    @property
    def clashes(self):
        """How many requests name two frames to which a driver gives one place that numbers them by the entries of the buffer."""
        return frame_places.clashes(self.frames)

    def compare(self):
        """Compares all; what differs is in `faults`."""
        try:
            self.calls = self.read("calls").decode().splitlines()
            self.compare_all()
        except (kernel_structs.Differs, OSError, ValueError, LookupError) as fault:
            self.faults.append(repr(fault))
        return self

    def compare_all(self):
        status, steps = self.stream.played(self.mode.words)
        left_out = self.stream.left_out(self.mode.is_frame_based, self.mode.start)
        ended = int(self.read("status"))
        self.expect(ended == status == (LEFT_OUT if left_out else 0),
                    f"status {ended}, {status} without a device: {self.read('stderr').decode().strip()[:200]}")
        for line in self.calls:
            self.expect("FAILED" not in line, line)
        log = self.read("log").decode(errors="replace")
        for line in log.splitlines():
            self.expect(not any(word in line for word in BAD_WORDS), f"the kernel's log has {line[:160]}")
        traced = requests_of(self.read("trace"), formats_of((self.out / "formats").read_text()))
        kept, found = self.kept_bytes(), found_in(log)
        for what, count in (("requests traced", len(traced)), ("OUTPUT buffers kept", len(kept)), ("requests in the log", len(found))):
            self.expect(count == len(steps), f"{count} {what}, and {len(steps)} wanted")
        for number, step in enumerate(steps[:min(len(traced), len(kept), len(found))]):
            self.compare_request(number, step, traced[number], kept[number], found[number])
        self.compare_buffers(steps)
        decoded = {self.stream.names.get(step.unit) for step in steps}
        wanted = set(self.stream.names.values()) - left_out
        self.expect(decoded == wanted, f"{len(wanted - decoded)} pictures weren't decoded, and {len(decoded - wanted)} can't be")

    def kept_bytes(self):
        """The bytes of the OUTPUT buffers, in the order of requests."""
        text, at, kept = self.read("bytes"), 0, []
        while at < len(text):
            end = text.index(b"\n", at)
            size = int(text[at:end].split()[1])
            kept.append(text[end + 1:end + 1 + size])
            at = end + 1 + size
        return kept

    def compare_request(self, number, step, traced, kept, found):
        """A request's controls, its bytes, and where the kernel finds its references."""
        where = f"request {number} (unit {step.unit}, slice {step.slice})"
        slices = self.stream.slices[step.unit - 1]
        texts = slices if self.mode.is_frame_based else slices[step.slice:step.slice + 1]
        self.expect(kept == b"".join(self.mode.start + text for text in texts), f"{where}: the OUTPUT buffer has other bytes")
        lying = self.references(step)
        surfaces = {place: surface for place, (_, surface) in lying.items()}
        self.expect(found == surfaces, f"{where}: the kernel finds the entries of the buffer in the surfaces {found}, "
                                       f"and they lie in {surfaces}")
        named = self.named(step)
        self.expect(named <= lying.keys(), f"{where}: the lists name the entries {named}, and surfaces have {lying.keys()}")
        self.frames.append((step.capture, set(found.values()), {surfaces[place] for place in named & lying.keys()}))
        for control, wanted in self.wanted(step, lying).items():
            value, count = read(control, traced[control])
            self.members += count
            if value != wanted:
                self.faults += [f"{where}: {line}" for line in differences(wanted, value, control)]
        self.requests += 1

    def references(self, step):
        """By the valid entries of the buffer whose frames lie in a surface: the time of its decode, and the surface."""
        held = {self.stream.names[unit]: (timestamp, surface) for surface, (timestamp, unit) in step.surfaces.items()}
        lying = {}
        for place, entry in enumerate(self.stream.controls(step.unit, step.slice)["v4l2_ctrl_h264_decode_params"]["dpb"]):
            name = self.stream.names.get(entry["reference_ts"] // 1000)
            if entry["flags"] & VALID and name in held:
                lying[place] = held[name]
        return lying

    def slice_params(self, step):
        """Those of the slices that a request has."""
        indices = range(len(self.stream.slices[step.unit - 1])) if self.mode.is_frame_based else (step.slice,)
        return [self.stream.controls(step.unit, index)["v4l2_ctrl_h264_slice_params"] for index in indices]

    def named(self, step):
        """The entries of the buffer that the lists of a request name."""
        return {entry["index"] for params in self.slice_params(step) for which in (0, 1) for entry in params[f"ref_pic_list{which}"]
                if entry["fields"]}

    def wanted(self, step, lying):
        """The controls that a request has to have."""
        wanted = dict(self.stream.controls(step.unit, step.slice))
        params = wanted["v4l2_ctrl_h264_decode_params"]
        dpb = [dict(entry, reference_ts=lying.get(place, (0, None))[0]) for place, entry in enumerate(params["dpb"])]
        wanted["v4l2_ctrl_h264_decode_params"] = params = dict(params, dpb=dpb)
        if not self.mode.is_frame_based:
            return wanted
        params["flags"] |= max(FRAME_FLAGS[slice_params["slice_type"]] for slice_params in self.slice_params(step))
        return {name: value for name, value in wanted.items() if name not in SLICE_CONTROLS}

    def compare_buffers(self, steps):
        """The buffers have to come back in the order of their requests, with the decode's time and without an error."""
        told = [(words[0], words[1], dict(zip(words[2::2], words[3::2]))) for words in map(str.split, self.calls) if "QBUF" in words[0]]
        ends = [step for step in steps if not step.is_held]
        for queue, wanted in (("OUTPUT", [(step.timestamp, step.bytes) for step in steps]),
                              ("CAPTURE", [(step.timestamp, step.capture) for step in ends])):
            member = "bytes" if queue == "OUTPUT" else "index"
            back = [(int(said["ts"]), int(said[member])) for call, name, said in told if call == "DQBUF" and name == queue]
            self.expect(back == wanted, f"{len(back)} {queue} buffers come back, {sum(a != b for a, b in zip(back, wanted))} of them otherwise")
            self.expect(not any(int(said["flags"], 16) & ERROR for call, name, said in told if call == "DQBUF"), "a buffer has an error")
        queued = [int(said["index"]) for call, name, said in told if call == "QBUF" and name == "CAPTURE"]
        self.expect(queued == [step.capture for step in ends], f"{len(queued)} CAPTURE buffers are queued, for {len(ends)} pictures")
        out = 0
        for line in self.calls:
            out += line.startswith("REQUEST_QUEUE") - line.startswith("DQBUF OUTPUT")
            self.in_flight = max(self.in_flight, out)


def found_in(log):
    """For each request, by the entries of the buffer, the surface in which the kernel found it."""
    found = []
    for line in log.splitlines():
        if "Got OUTPUT buffer" in line:
            found.append({})
        entry = re.search(r"dpb\[(\d+)\]:\d+, vb2_index: (\d+)", line)
        if entry and found:
            found[-1][int(entry[1])] = int(entry[2])
    return found

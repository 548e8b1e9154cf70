#!/usr/bin/env python3
"""Runs examples/v4l2_request.c on a device that isn't there, and looks at what it asks of it.

    tests/python/device.py [--program PROGRAM] [--preview PREVIEW] FILE..

tests/v4l2/fake_device.c answers for the device, with planes and without, and tells each request. A surface is found by the timestamp
of its decode alone, as a driver finds it. Slice by slice, with one request in flight and with several, the record of each request is
computed from its structs, its bytes and the pictures of these surfaces: so each decode gives a picture, and the pictures have to be
those that `preview run --hex` shows of the file. Frame by frame, with start codes and where each picture has one slice without, each
request has to have the bytes of all slices of a unit, no slice_params, PFRAME or BFRAME as its slices are, and in each valid entry of
the buffer the timestamp at which that unit was decoded, as long as a surface has it. Then streams whose pictures change their size,
scaling matrices, pictures that can't be decoded whole, and devices that can't do what is asked of them.
PROGRAM is build/v4l2_request by default, PREVIEW bin/preview or what PREVIEW in the environment names.

Exit status: 0 if nothing differs, else 1; 77 if a compiler or the kernel's header isn't there.
"""
import hashlib
import json
import os
import pathlib
import random
import subprocess
import sys
import tempfile

sys.path.append(str(pathlib.Path(__file__).resolve().parent.parent.parent / "tools"))

from cupdaisy import draw_streams, kernel_structs, processes    # noqa: E402
from cupdaisy.command_line import NOT_INSTALLED, are_installed, parser_of    # noqa: E402
from cupdaisy.kernel_structs import Differs    # noqa: E402
from cupdaisy.program import PREVIEW    # noqa: E402
from cupdaisy.streams import START, cut, slices_in, split    # noqa: E402
from cupdaisy.workspace import TOP    # noqa: E402

# The controls by their numbers in the class.
NAMES = {2: "sps", 3: "pps", 4: "scaling_matrix", 5: "pred_weights", 6: "slice_params", 7: "decode_params"}
NO_SLICE = ["sps", "pps", "scaling_matrix", "decode_params"]
PFRAME, BFRAME = 8, 16
# By slice_type: P, B, I.
FLAGS = (PFRAME, BFRAME, 0)


class Asked:
    """A request, as the device was asked."""

    def __init__(self, line):
        word, timestamp, capture, hold, waiting, text, *controls = line.split(" ")
        if word != "request":
            raise Differs(f"a line is {line[:80]!r}")
        self.timestamp, self.capture, self.is_held, self.text = int(timestamp), int(capture), hold == "1", bytes.fromhex(text)
        self.waiting = int(waiting)    # requests that were queued behind it
        pairs = (control.split("=") for control in controls)
        self.controls = {NAMES[int(number)]: bytes.fromhex(value) for number, value in pairs}


class Surfaces:
    """The CAPTURE buffers: what each holds, found by the timestamp of its decode."""

    def __init__(self):
        self.held = {}    # place: (timestamp, content)

    def at(self, timestamp):
        found = [content for decoded, content in self.held.values() if decoded == timestamp]
        if len(found) != 1:
            raise Differs(f"{len(found)} surfaces have the timestamp {timestamp}")
        return found[0]


class ByTime(dict):
    """The contents of surfaces by timestamps, looked up as they are asked for."""

    def __init__(self, surfaces):
        super().__init__()
        self.surfaces = surfaces

    def __missing__(self, timestamp):
        return self.surfaces.at(timestamp)


def ran_on(options, device, file, *words, **environment):
    """A run on the device, and the lines that it told."""
    with tempfile.NamedTemporaryFile() as log:
        command = [options.program, file, "--video", "fake-video", "--media", "fake-media", *words]
        ran = processes.run(command, env=dict(os.environ, LD_PRELOAD=str(device), FAKE_LOG=log.name, **environment))
        return ran, pathlib.Path(log.name).read_text().splitlines()


def asked(options, device, file, *words, **environment):
    """The requests of a run on the device, which has to go well."""
    ran, lines = ran_on(options, device, file, *words, **environment)
    if ran.status != 0 or ran.output:
        raise Differs(f"v4l2_request ended with status {ran.status}: {ran.errors.decode().strip()[:200]}")
    return [Asked(line) for line in lines if not line.startswith("format")]


def pictures_of(memory, requests):
    """The pictures of requests of slices, in the order of their decodes."""
    surfaces, records, pictures = Surfaces(), b"", []
    for request in requests:
        values, form = {}, b""
        for control in kernel_structs.CONTROLS:
            struct = request.controls.get(control)
            form += b"" if control != "pred_weights" else b"\0" if struct is None else b"\1"
            if struct is not None:
                values[control], more = memory.read(f"v4l2_ctrl_h264_{control}", struct)
                form += more
        surfaces.held.pop(request.capture, None)
        records += kernel_structs.record(form, values["slice_params"], values["decode_params"]["dpb"], request.text,
                                         ByTime(surfaces))
        if not request.is_held:
            pictures.append(hashlib.sha256(records).digest())
            surfaces.held[request.capture] = request.timestamp, pictures[-1]
            records = b""
    return pictures


def compare_slices(options, memory, device, file, requests, **environment):
    """The pictures of a run, slice by slice; they have to be those that are shown."""
    wanted = set(names_of(options, file).values())
    found = pictures_of(memory, asked(options, device, file, "--requests", requests, **environment))
    if set(found) != wanted:
        raise Differs(f"{len(set(found) - wanted)} of {len(found)} pictures are shown of no unit, and "
                      f"{len(wanted - set(found))} of {len(wanted)} weren't decoded")
    return len(found)


def compare_frames(options, memory, device, file, has_start_codes):
    """The requests of a run, frame by frame, held against `plan --json`; each picture is decoded."""
    names, wanted = names_of(options, file), {}
    for plan, nals in zip(plans_of(options, file), units_of(file)):
        if "requests" in plan:
            text = b"".join((START if has_start_codes else b"") + nal for nal in nals)
            wanted.setdefault(text, []).append(plan)
    surfaces, words = Surfaces(), ["--frame-based"] + ([] if has_start_codes else ["--no-start-code"])
    requests, decoded = asked(options, device, file, *words), set()
    for request in requests:
        surfaces.held.pop(request.capture, None)
        value, _ = memory.read("v4l2_ctrl_h264_decode_params", request.controls["decode_params"])
        if request.is_held or sorted(request.controls) != sorted(NO_SLICE):
            raise Differs(f"a request of a frame has {sorted(request.controls)}, hold {request.is_held}")
        plan = next((plan for plan in wanted.get(request.text, []) if is_of(plan, value, surfaces, names)), None)
        if plan is None:
            raise Differs(f"a request of {len(request.text)} bytes is of no unit")
        surfaces.held[request.capture] = request.timestamp, names[plan["unit"]]
        decoded.add(names[plan["unit"]])
    if decoded != set(names.values()):
        raise Differs(f"{len(set(names.values()) - decoded)} pictures weren't decoded")
    return len(requests)


def plans_of(options, file):
    return [json.loads(line) for line in processes.printed_anyway([options.preview, "plan", "--json", file]).splitlines()]


def units_of(file):
    """The slices of each unit."""
    return [slices_in(nals) for nals in cut(split(pathlib.Path(file).read_bytes()))]


def names_of(options, file):
    """The picture of each valid unit."""
    shown = kernel_structs.shown_by_run(options.preview, file, len(units_of(file)))
    return {int(words[1]): bytes.fromhex(words[3]) for words in map(str.split, shown) if words[2] == "ready"}


def is_of(plan, value, surfaces, names):
    """Whether decode_params are those of a unit's first slice but for what a frame has, with its references where they lie."""
    flags, lying = 0, {content: timestamp for timestamp, content in surfaces.held.values()}
    for request in plan["requests"]:
        params, dpb = request["v4l2_ctrl_h264_slice_params"], request["v4l2_ctrl_h264_decode_params"]["dpb"]
        flags = max(flags, FLAGS[params["slice_type"]])
        for entry in params["ref_pic_list0"] + params["ref_pic_list1"]:
            if entry["fields"] and names[dpb[entry["index"]]["reference_ts"] // 1000] not in lying:
                return False
    first = plan["requests"][0]["v4l2_ctrl_h264_decode_params"]
    times = [lying.get(names.get(entry["reference_ts"] // 1000), 0) if entry["flags"] else 0 for entry in first["dpb"]]
    return value["flags"] & (PFRAME | BFRAME) == flags and value["frame_num"] == first["frame_num"] \
        and [entry["reference_ts"] for entry in value["dpb"]] == times


def expect(is_so, text):
    if not is_so:
        raise Differs(text)


def drawn_stream(folder, name, is_wanted, options):
    """A small stream that is drawn until its plans are as wanted."""
    file = pathlib.Path(folder) / name
    for seed in range(1000):
        file.write_bytes(draw_streams.stream_of(random.Random(seed), 6))
        if is_wanted(plans_of(options, file)):
            return file
    raise Differs(f"{name} can't be drawn")


def sets_of(plan):
    return {request["v4l2_ctrl_h264_pps"]["pic_parameter_set_id"] for request in plan["requests"]}


def has_matrices(plans):
    return any("SCALING_MATRIX_PRESENT" in request["v4l2_ctrl_h264_pps"]["flags"] for plan in plans for request in plan["requests"])


def compare_sizes(options, memory, device, folder):
    """Two streams of other sizes in one, back and forth: buffers are made anew at each change."""
    files = [drawn_stream(folder, f"{width}.264", lambda plans, width=width: width_of(plans) == width and not has_matrices(plans)
                          and all(len(sets_of(plan)) == 1 for plan in plans), options) for width in (5, 7)]
    file = pathlib.Path(folder) / "sizes.264"
    file.write_bytes(b"".join(file.read_bytes() for file in (*files, *files)))
    for requests in ("1", "8"):
        compare_slices(options, memory, device, file, requests)
        _, lines = ran_on(options, device, file, "--requests", requests)
        widths = [int(line.split()[1]) for line in lines if line.startswith("format")]
        expect(widths == [80, 112, 80, 112], f"the widths of formats are {widths}")
    return len(plans_of(options, file))


def width_of(plans):
    return plans[0]["requests"][0]["v4l2_ctrl_h264_sps"]["pic_width_in_mbs_minus1"] + 1


def compare_sets(options, device, folder):
    """A picture under several picture parameter sets isn't decoded frame by frame, and the rest is."""
    file = drawn_stream(folder, "sets.264", lambda plans: len(sets_of(plans[0])) == 1 and any(
        len(sets_of(plan)) > 1 for plan in plans), options)
    mixed = [plan["unit"] for plan in plans_of(options, file) if len(sets_of(plan)) > 1]
    ran, lines = ran_on(options, device, file, "--frame-based")
    expect(ran.status == 3 and f"the slices of unit {mixed[0]} have several picture parameter sets".encode() in ran.errors,
           f"status {ran.status}: {ran.errors.decode().strip()[:200]}")
    texts = [b"".join(START + nal for nal in units_of(file)[unit - 1]) for unit in mixed]
    expect(not {Asked(line).text for line in lines if line.startswith("request")} & set(texts), "such a picture is decoded")


def compare_slices_untold(options, device, folder):
    """A picture of several slices isn't decoded as a whole without start codes, by which they are told apart."""
    file = drawn_stream(folder, "untold.264", lambda plans: all(len(sets_of(plan)) == 1 for plan in plans) and not is_of_slices(
        plans[:1]) and is_of_slices(plans), options)
    first = next(plan["unit"] for plan in plans_of(options, file) if len(plan["requests"]) > 1)
    ran, lines = ran_on(options, device, file, "--frame-based", "--no-start-code")
    expect(ran.status == 3 and f"the slices of unit {first} have no start codes".encode() in ran.errors,
           f"status {ran.status}: {ran.errors.decode().strip()[:200]}")
    texts = [b"".join(nals) for nals in units_of(file) if len(nals) > 1]
    expect(not {Asked(line).text for line in lines if line.startswith("request")} & set(texts), "such a picture is decoded")


def is_of_slices(plans):
    """Whether a picture has several slices."""
    return any(len(plan.get("requests", ())) > 1 for plan in plans)


def compare_devices(options, memory, device, folder, file):
    """Devices that can't do what is asked of them, have no control for matrices, or give fewer surfaces than are asked for."""
    compare_slices(options, memory, device, file, "8", FAKE_SURFACES="17")
    for environment, words in (({"FAKE_FORMAT": "1"}, "doesn't decode slices of H.264"), ({"FAKE_SMALL": "1"}, "no pictures as large"),
                               ({"FAKE_SURFACES": "1"}, "fewer surfaces than a picture needs")):
        ran, _ = ran_on(options, device, file, **environment)
        expect(ran.status == 1 and words.encode() in ran.errors, f"{environment}: status {ran.status}, {ran.errors!r}")
    plain = asked(options, device, file, FAKE_MATRICES="0")
    expect(all("scaling_matrix" not in request.controls for request in plain), "a control is sent that the device doesn't have")
    expect(all("scaling_matrix" in request.controls for request in asked(options, device, file, FAKE_LEAST="256")),
           "a device has the control of matrices, and a request hasn't")
    ran, _ = ran_on(options, device, drawn_stream(folder, "lists.264", has_matrices, options), FAKE_MATRICES="0")
    expect(ran.status == 1 and b"has scaling matrices" in ran.errors, f"matrices: status {ran.status}, {ran.errors!r}")


def main():
    parser = parser_of(__doc__)
    parser.add_argument("--program", default=str(TOP / "build" / "v4l2_request"))
    parser.add_argument("--preview", default=PREVIEW)
    parser.add_argument("files", nargs="+", metavar="FILE")
    options = parser.parse_args()
    if not are_installed("gcc") or not os.path.exists(kernel_structs.HEADER):
        print("gcc or the kernel's header isn't there: nothing was compared")
        return NOT_INSTALLED
    memory, failures = kernel_structs.Memory(pathlib.Path(kernel_structs.HEADER).read_text()), 0
    with tempfile.TemporaryDirectory() as folder:
        device = pathlib.Path(folder) / "fake_device.so"
        subprocess.run(["gcc", "-std=c99", "-O1", "-shared", "-fPIC", TOP / "tests/v4l2/fake_device.c", "-o", device], check=True)
        for file in options.files:
            try:
                counts = [compare_slices(options, memory, device, file, requests, FAKE_PLANES=planes)
                          for planes, requests in (("1", "1"), ("0", "1"), ("1", "8"))]
                starts = (True,) if is_of_slices(plans_of(options, file)) else (True, False)
                counts += [compare_frames(options, memory, device, file, has) for has in starts]
                print(f"{file}: {', '.join(map(str, counts))} decodes compared")
            except Differs as fault:
                failures += 1
                print(f"{file}: {fault}")
        try:
            changes = compare_sizes(options, memory, device, folder)
            compare_sets(options, device, folder)
            compare_slices_untold(options, device, folder)
            compare_devices(options, memory, device, folder, options.files[0])
            waiting = max(request.waiting for file in options.files for request in asked(options, device, file, "--requests", "8"))
            print(f"{changes} pictures of changing sizes, sets and devices compared; at most {waiting + 1} requests wait together")
        except Differs as fault:
            failures += 1
            print(fault)
    return 1 if failures else 0


if __name__ == "__main__":
    sys.exit(main())

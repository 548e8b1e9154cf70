"""Compares the JSON of plans with the kernel's structs and with the pictures that are shown."""
import hashlib
import json
import pathlib
import struct

from cupdaisy import doubts
from cupdaisy.command_line import NOT_INSTALLED, parser_of
from cupdaisy.kernel_structs import CONTROLS, HEADER, TYPES, UNDIGESTED, Differs, Structs, record, shown_by_run
from cupdaisy.processes import printed_anyway
from cupdaisy.program import PREVIEW
from cupdaisy.streams import START, cut, slices_in, split

REQUEST = ("timestamp", "hold_capture_buf", "bytes", *(f"v4l2_ctrl_h264_{name}" for name in CONTROLS))
PLAN = ["unit", "position", "begins_period", "counts"]
FRAME = ("v4l2_ctrl_h264_sps", "v4l2_ctrl_h264_pps", "v4l2_ctrl_h264_scaling_matrix")
# The flags of a picture where a slice is P and none is B, and where one is B.
PFRAME, BFRAME = "V4L2_H264_DECODE_PARAM_FLAG_PFRAME", "V4L2_H264_DECODE_PARAM_FLAG_BFRAME"
# Where the names of a member's flags begin.
FLAGS = {("v4l2_ctrl_h264_sps", "flags"): "V4L2_H264_SPS_FLAG_",
         ("v4l2_ctrl_h264_sps", "constraint_set_flags"): "V4L2_H264_SPS_CONSTRAINT_SET",
         ("v4l2_ctrl_h264_pps", "flags"): "V4L2_H264_PPS_FLAG_",
         ("v4l2_ctrl_h264_slice_params", "flags"): "V4L2_H264_SLICE_FLAG_",
         ("v4l2_h264_dpb_entry", "flags"): "V4L2_H264_DPB_ENTRY_FLAG_",
         ("v4l2_ctrl_h264_decode_params", "flags"): "V4L2_H264_DECODE_PARAM_FLAG_"}


class Layouts(Structs):
    """The structs of the header, held against the JSON."""

    def form(self, name, value):
        """The digest form of a struct, once its members are those of the header."""
        members = [member for _, member, _ in self.structs[name] if member != "reserved"]
        if list(value) != members:
            raise Differs(f"{name} has {list(value)}, and not {members}")
        return b"".join(self.member_form(name, member, of, sizes, value[member])
                        for of, member, sizes in self.structs[name] if member not in UNDIGESTED)

    def member_form(self, name, member, of, sizes, value):
        if sizes:
            if not isinstance(value, list) or len(value) != sizes[0]:
                raise Differs(f"{name}.{member} isn't a list of {sizes[0]}")
            return b"".join(self.member_form(name, member, of, sizes[1:], item) for item in value)
        if of not in TYPES:
            return self.form(of, value)
        if (name, member) in FLAGS:
            value = self.flags(FLAGS[name, member], value)
        if type(value) is not int:
            raise Differs(f"{name}.{member} is {value!r}")
        return struct.pack("<" + TYPES[of], value)

    def flags(self, front, text):
        """The number of flags by their names, which stand by rising bit."""
        names = text.split("|") if text else []
        bits = [self.numbers[name] for name in names]
        if bits != sorted(set(bits)) or not all(name.startswith(front) for name in names):
            raise Differs(f"{text!r} aren't names of {front}* by rising bit")
        return sum(bits)


def record_of(layouts, request, text, pictures):
    """The record of a request, of which its picture is the digest."""
    weights = request.get("v4l2_ctrl_h264_pred_weights")
    if list(request) != [name for name in REQUEST if weights is not None or name != "v4l2_ctrl_h264_pred_weights"]:
        raise Differs(f"a request has {list(request)}")
    if request["bytes"] != len(text):
        raise Differs(f"{request['bytes']} bytes, and not {len(text)}")
    form = b""
    for control in CONTROLS:
        name = f"v4l2_ctrl_h264_{control}"
        if control != "pred_weights":
            form += layouts.form(name, request[name])
        else:
            form += b"\0" if weights is None else b"\1" + layouts.form(name, weights)
    return record(form, request["v4l2_ctrl_h264_slice_params"], request["v4l2_ctrl_h264_decode_params"]["dpb"], text, pictures)


def members(line, told):
    """The members that a line has, by what is told of its unit."""
    follows, in_doubt = told
    following = ["follows"] if follows is not None else []
    if line.get("follows") != follows or line.get("in_doubt", False) != in_doubt:
        raise Differs(f"follows {line.get('follows')}, in doubt {line.get('in_doubt')}, and not {told}")
    if "requests" not in line:
        return ["unit", "fault" if "fault" in line else "no_picture", *following]
    return [*PLAN, *following, *(["in_doubt"] if in_doubt else []), "requests"]


def framed(line):
    """The line of the same unit with the request of its picture, by the requests of its slices."""
    if "requests" not in line:
        return line
    first = line["requests"][0]
    types = {request["v4l2_ctrl_h264_slice_params"]["slice_type"] for request in line["requests"]}
    params = first["v4l2_ctrl_h264_decode_params"]
    flags = [params["flags"]] if params["flags"] else []
    flags += [BFRAME] if 1 in types else [PFRAME] if 0 in types else []
    request = {"timestamp": first["timestamp"], "bytes": sum(request["bytes"] for request in line["requests"]),
               **{name: first[name] for name in FRAME}, "v4l2_ctrl_h264_decode_params": {**params, "flags": "|".join(flags)}}
    return {**{name: value for name, value in line.items() if name != "requests"}, "request": request}


def shown(layouts, line, slices, told, pictures):
    """What has to be shown of the unit of a line, whose picture is put among those by their timestamps."""
    if list(line) != members(line, told):
        raise Differs(f"a line has {list(line)}")
    if "fault" in line:
        if list(line["fault"]) != ["number", "name"]:
            raise Differs(f"a fault has {list(line['fault'])}")
        return f"fault {line['fault']['number']} {line['fault']['name']}"
    if "no_picture" in line:
        if line["no_picture"] is not True:
            raise Differs(f"a unit without a picture has {line}")
        return "empty"
    if list(line["counts"]) != ["top", "bottom"] or len(line["requests"]) != len(slices):
        raise Differs(f"a plan has {list(line)}, and {len(line['requests'])} requests for {len(slices)} slices")
    timestamp = 1000 * line["unit"]
    records = b""
    for place, (request, text) in enumerate(zip(line["requests"], slices)):
        if request["timestamp"] != timestamp or request["hold_capture_buf"] != (place + 1 < len(slices)):
            raise Differs(f"request {place} has timestamp {request['timestamp']}, hold {request['hold_capture_buf']}")
        records += record_of(layouts, request, text, pictures)
    pictures[timestamp] = hashlib.sha256(records).digest()
    return f"ready {pictures[timestamp].hex()}"


def compare(program, layouts, file):
    """Prints what was found in one file; whether nothing differs."""
    lines = [json.loads(line) for line in printed_anyway([program, "plan", "--json", file]).splitlines()]
    units = cut(split(pathlib.Path(file).read_bytes()))
    answers = shown_by_run(program, file, len(units))
    if [line.get("unit") for line in lines] != list(range(1, len(units) + 1)) or len(answers) != len(units):
        print(f"{file}: {len(lines)} lines and {len(answers)} shown for {len(units)} units")
        return False
    pictures, differing = {}, 0
    for line, nals, answer, told in zip(lines, units, answers, doubts.told(lines, units)):
        slices = [START + nal for nal in slices_in(nals)]
        try:
            expected = f"show {line['unit']} {shown(layouts, line, slices, told, pictures)}"
        except (Differs, KeyError, IndexError, TypeError, struct.error) as fault:
            expected = f"unit {line['unit']}: {fault!r}"
        if expected != answer:
            differing += 1
            print(f"{file}: {expected}, and {answer}")
    frames = printed_anyway([program, "plan", "--json", "--frames", file]).splitlines()
    for line, frame in zip(lines, frames):
        if json.dumps(framed(line)) != json.dumps(json.loads(frame)):
            differing += 1
            print(f"{file}: unit {line['unit']} has another request of its picture")
    if len(frames) != len(lines):
        differing += 1
        print(f"{file}: {len(frames)} lines with --frames")
    print(f"{file}: {len(units)} units compared, {differing} differences")
    return not differing


def main(doc):
    parser = parser_of(doc)
    parser.add_argument("--program", default=PREVIEW)
    parser.add_argument("--header", default=HEADER)
    parser.add_argument("files", nargs="+", metavar="FILE")
    options = parser.parse_args()
    if not pathlib.Path(options.header).exists():
        print(f"{options.header} isn't there: nothing was compared")
        return NOT_INSTALLED
    layouts = Layouts(pathlib.Path(options.header).read_text())
    return 0 if all([compare(options.program, layouts, file) for file in options.files]) else 1

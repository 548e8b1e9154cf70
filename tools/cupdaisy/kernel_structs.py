"""The structs of <linux/v4l2-controls.h> for H.264, as the header has them, and the record of a request made of them."""
import pathlib
import re
import struct
import tempfile

from cupdaisy import processes

HEADER = "/usr/include/linux/v4l2-controls.h"
CONTROLS = ("sps", "pps", "scaling_matrix", "pred_weights", "slice_params", "decode_params")
TYPES = {"__u8": "B", "__s8": "b", "__u16": "H", "__s16": "h", "__u32": "I", "__s32": "i", "__u64": "Q"}
STRUCT = re.compile(r"^struct (v4l2_(?:ctrl_)?h264_\w+) \{\n(.*?)^\};", re.MULTILINE | re.DOTALL)
MEMBER = re.compile(r"^\s+(?:struct )?(\w+) (\w+)((?:\[\w+\])*);", re.MULTILINE)
NUMBER = re.compile(r"^#define (V4L2_H264_\w+)[ \t]+(0x[0-9a-fA-F]+|\d+|\(.*\))$", re.MULTILINE)
# What has no part in the digest form.
UNDIGESTED = ("reserved", "reference_ts")
P, B = 0, 1


class Differs(Exception):
    """What was printed isn't what it has to be."""


class Structs:
    """The structs of the header: of each member its type, its name and the lengths of its arrays."""

    def __init__(self, text):
        self.numbers = {}
        for name, value in NUMBER.findall(text):
            for other, number in self.numbers.items():
                value = re.sub(rf"\b{other}\b", str(number), value)
            self.numbers[name] = eval(value, {"__builtins__": {}})    # numbers, products and brackets alone
        self.structs = {name: [(of, member, [self.size(size) for size in re.findall(r"\[(\w+)\]", sizes)])
                               for of, member, sizes in MEMBER.findall(body)] for name, body in STRUCT.findall(text)}

    def size(self, word):
        return int(word) if word.isdigit() else self.numbers[word]


class Memory(Structs):
    """The structs of the header as they lie in memory: each member at a multiple of its alignment, little-endian."""

    def alignment(self, of):
        if of in TYPES:
            return struct.calcsize(TYPES[of])
        return max(self.alignment(member) for member, _, _ in self.structs[of])

    def read(self, name, text):
        """The value of a struct that these bytes are, and its digest form."""
        value, form, end = self.value(name, text, 0)
        if end != len(text):
            raise Differs(f"{name} has {len(text)} bytes, and not {end}")
        return value, form

    def value(self, of, text, at):
        """What lies at a place: its value, its digest form, and the place after it."""
        if of in TYPES:
            size = struct.calcsize(TYPES[of])
            return struct.unpack_from("<" + TYPES[of], text, at)[0], text[at:at + size], at + size
        value, form = {}, b""
        for member_of, member, sizes in self.structs[of]:
            begin = self.aligned(text, at, self.alignment(member_of))
            value[member], member_form, at = self.array(member_of, sizes, text, begin)
            if member == "reserved" and any(text[begin:at]):
                raise Differs(f"{of}.reserved isn't 0")
            form += b"" if member in UNDIGESTED else member_form
        return value, form, self.aligned(text, at, self.alignment(of))

    def array(self, of, sizes, text, at):
        if not sizes:
            return self.value(of, text, at)
        values, form = [], b""
        for _ in range(sizes[0]):
            value, each, at = self.array(of, sizes[1:], text, at)
            values.append(value)
            form += each
        return values, form, at

    def aligned(self, text, at, alignment):
        """The next multiple of an alignment; there are zeros up to it."""
        end = -(-at // alignment) * alignment
        if any(text[at:end]):
            raise Differs(f"byte {at} isn't 0, and belongs to no member")
        return end


def record(form, params, dpb, text, pictures):
    """The record of a request: its digest form, its bytes, and the pictures that its lists name, by their timestamps."""
    form += struct.pack("<Q", len(text)) + text
    for x, types in ((0, (P, B)), (1, (B,))):
        active = params[f"num_ref_idx_l{x}_active_minus1"] + 1 if params["slice_type"] in types else 0
        for place, entry in enumerate(params[f"ref_pic_list{x}"]):
            if entry["fields"] and place >= active:
                raise Differs(f"entry {place} of list {x} isn't active")
            if place < active:
                form += pictures[dpb[entry["index"]]["reference_ts"]] if entry["fields"] else bytes(32)
    return form


def shown_by_run(program, file, units):
    """What `run --hex` shows of each unit of a file, once all is settled."""
    with tempfile.NamedTemporaryFile("w", suffix=".script") as script:
        shows = "".join(f"show {number}\n" for number in range(1, units + 1))
        script.write(f"load {pathlib.Path(file).resolve()}\nsettle\n{shows}")
        script.flush()
        return processes.printed_anyway([program, "run", "--hex", script.name]).splitlines()[2:]

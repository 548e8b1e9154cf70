"""What the kernel's ftrace kept of visl's H.264 controls: the pages of trace_pipe_raw, read by the formats that the kernel tells."""
import re
import struct

PAGE = 4096
# Kinds of entries of a page (linux/ring_buffer.h); those below are data, and say how long they are.
PADDING, EXTEND, STAMP = 29, 30, 31
MISSED = 1 << 31
LENGTHS = {"ref_pic_list0": 32, "ref_pic_list1": 32, "dpb": 16}


class Lost(Exception):
    """Events are missing from a trace."""


def formats_of(text):
    """By an event's number its name, and its struct's place and size."""
    formats = {}
    for part in re.split(r"^name: ", text, flags=re.MULTILINE)[1:]:
        number = int(re.search(r"^ID: (\d+)", part, re.MULTILINE)[1])
        place, size = re.search(r"field:struct \w+ \w;\toffset:(\d+);\tsize:(\d+);", part).groups()
        formats[number] = part.split("\n", 1)[0], int(place), int(size)
    return formats


def events_of(text, formats):
    """The events in order: each one's name and the bytes of its struct."""
    for begin in range(0, len(text), PAGE):
        page = text[begin:begin + PAGE]
        commit = struct.unpack_from("<Q", page, 8)[0]
        if commit & MISSED:
            raise Lost(f"page {begin // PAGE} misses events")
        at, end = 16, 16 + (commit & 0xfffff)
        while at < end:
            kind = struct.unpack_from("<I", page, at)[0] & 31
            if kind in (EXTEND, STAMP):
                at += 8
                continue
            if kind in (0, PADDING):
                size, data = struct.unpack_from("<I", page, at + 4)[0] + 4, at + 8
            else:
                size, data = 4 * kind + 4, at + 4
            if kind != PADDING:
                name, place, length = formats[struct.unpack_from("<H", page, data)[0]]
                yield name, page[data + place:data + place + length]
            at += size


def requests_of(text, formats):
    """The requests in order: each one's controls by their structs' names. visl traces the entries of both lists and of the buffer
    beside their struct too, and so they have to be there."""
    requests, entries = [], []
    for name, value in events_of(text, formats):
        if name == "v4l2_ctrl_h264_sps":
            requests.append({})
            entries.append(dict.fromkeys(LENGTHS, 0))
        if name.startswith("v4l2_h264_"):
            entries[-1][{"v4l2_h264_dpb_entry": "dpb"}.get(name, name[len("v4l2_h264_"):])] += 1
        else:
            requests[-1][name] = value
    for request, count in zip(requests, entries):
        if len(request) != 6 or count != LENGTHS:
            raise Lost(f"a request has {sorted(request)}, with {count}")
    return requests

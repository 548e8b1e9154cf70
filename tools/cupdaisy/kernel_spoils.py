"""Spoiled controls: the kernel has to refuse each, or the comparison has to see it."""
import itertools
import math
import pathlib
import random
import shutil
import struct
import tempfile

from cupdaisy import draw_streams
from cupdaisy.kernel_jobs import MEMORY, Job, Mode, Stream, job_line
from cupdaisy.kernel_structs import TYPES

PICTURES, TRIES = 6, 10000
# The controls by their numbers in the class.
CONTROLS = {2: "sps", 3: "pps", 4: "scaling_matrix", 5: "pred_weights", 6: "slice_params", 7: "decode_params"}
# Which bit of a member's first byte is turned, where it isn't the lowest one: that of sps.flags, of separate colour planes, is cleared
# by the kernel.
BITS = {"sps.flags": 4}
# The kernel sets some members of an SPS by others, whatever was sent: those of the other types of picture order counts, and those
# that only High profiles have. So there is a stream for either type.
COUNT_TYPES = (0, 1)
HIGH = 100


def size_of(of):
    """How many bytes a struct or a number has."""
    if of in TYPES:
        return struct.calcsize(TYPES[of])
    *_, (_, _, end) = members(of)
    return aligned(end, MEMORY.alignment(of))


def aligned(place, alignment):
    return -(-place // alignment) * alignment


def members(of):
    """The members of a struct: each with where it begins and where it ends."""
    end = 0
    for member_of, member, sizes in MEMORY.structs[of]:
        begin = aligned(end, MEMORY.alignment(member_of))
        end = begin + size_of(member_of) * math.prod(sizes)
        yield (member_of, member, sizes), begin, end


def places(of, path, begin=0):
    """The numbers that a struct has, each with its place; of an array those of the first and the last entry."""
    for (member_of, member, sizes), at, _ in members(of):
        for index in sorted({0, math.prod(sizes) - 1}) if member != "reserved" else ():
            name = f"{path}.{member}" + (f"[{index}]" if sizes else "")
            place = begin + at + index * size_of(member_of)
            if member_of in TYPES:
                yield name, place
            else:
                yield from places(member_of, name, place)


def is_whole(stream, count_type):
    """Whether a stream has each control, with members that the kernel leaves as they are."""
    requests = [stream.controls(unit, index) for unit in stream.names for index in range(len(stream.slices[unit - 1]))]
    sps = requests[0]["v4l2_ctrl_h264_sps"]
    return sps["profile_idc"] >= HIGH and sps["pic_order_cnt_type"] == count_type \
        and any("v4l2_ctrl_h264_pred_weights" in request for request in requests)


def drawn(rng, file, count_type):
    """A small stream with each control, in a file."""
    for _ in range(TRIES):
        file.write_bytes(draw_streams.stream_of(rng, PICTURES))
        stream = Stream(file)
        if is_whole(stream, count_type):
            return stream
    raise RuntimeError("no stream with each control can be drawn")


def are_seen(guest, seed):
    """Spoils each member of each control in turn, and prints what came of it; whether each was refused or seen, and nothing without."""
    folder, mode, rng = pathlib.Path(tempfile.mkdtemp(dir=guest.folder / "runs")), Mode(), random.Random(seed)
    streams = {f"{kind}.264": drawn(rng, folder / f"{kind}.264", kind) for kind in COUNT_TYPES}
    spoils = {name: f"{number}:{place}:{BITS.get(name, 1)}" for number, control in CONTROLS.items()
              for name, place in places(f"v4l2_ctrl_h264_{control}", control)}
    jobs = {f"{file}.{index}": (file, {"TOLD_SPOIL": spoiled}) for file, (index, spoiled) in
            itertools.product(streams, enumerate(spoils.values()))} | {f"{file}.plain": (file, {}) for file in streams}
    (folder / "jobs").write_text("".join(job_line(name, file, mode, **how) + "\n" for name, (file, how) in jobs.items()))
    guest.boot(folder)
    compared = {name: Job(folder, name, streams[file], mode).compare() for name, (file, _) in jobs.items()}
    found = {name: [compared[f"{file}.{index}"] for file in streams] for index, name in enumerate(spoils)}
    refused = [name for name, runs in found.items() if any(job.is_refused for job in runs)]
    seen = [name for name, runs in found.items() if name not in refused and any(job.faults for job in runs)]
    unseen = [name for name in spoils if name not in refused and name not in seen]
    odd = [f"without a spoiled control: {fault}" for file in streams for fault in compared[f"{file}.plain"].faults]
    for line in [f"not seen: {name}" for name in unseen] + odd:
        print(line)
    print(f"{len(spoils)} members of controls spoiled: {len(refused)} refused by the kernel, {len(seen)} seen by the comparison, "
          f"{len(unseen)} not seen", flush=True)
    shutil.rmtree(folder)
    return not unseen and not odd

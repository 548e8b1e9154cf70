"""What the benchmarks share: the built program, runs that are timed, and how they grow."""
import concurrent.futures
import functools
import multiprocessing
import pathlib
import random
import shutil
import subprocess
import sys
import time

sys.path.append(str(pathlib.Path(__file__).resolve().parent.parent / "tools"))

from cupdaisy.processes import waited    # noqa: E402
from cupdaisy.program import program    # noqa: E402, F401: the benchmarks take it from here
from cupdaisy.streams import START    # noqa: E402
from cupdaisy.workspace import SAMPLES, TOP    # noqa: E402, F401

REPEATS = 3
# profile_idc 66, count type 2, one reference frame, one macroblock, frame_num of 4 bits
SPS, PPS, IDR = (START + bytes.fromhex(unit) for unit in ("67 42 00 0A DA 79", "68 CE 38 80", "65 88 84 80"))


def aimed(what, ratio, least=None, most=None):
    """Prints a measure beside what is aimed at."""
    is_reached = (least is None or ratio >= least) and (most is None or ratio <= most)
    bound = f"at least {least}" if most is None else f"at most {most}"
    print(f"  -> {what}: {ratio:.2f}, aimed at {bound}: {'reached' if is_reached else 'NOT reached'}", flush=True)


def following(frame_num, data):
    """A P picture: frame_num stands in the header's bits 7 to 10, then come flags of 0 and slice_qp_delta 0."""
    return START + bytes([0x41, 0x9A | frame_num >> 3, (frame_num & 7) << 5 | 3]) + data


def chained(units, size):
    """An IDR picture and P pictures, each with the next frame_num and `size` bytes of slice data."""
    data = bytes(random.Random(1).choices(range(4, 256), k=size))
    return SPS + PPS + IDR + b"".join(following(i % 16, data) for i in range(1, units))


def compiled(name, library, folder):
    """The program bench/NAME.c, linked with the archive of the C interface."""
    flags = "-std=c99 -O2 -Wall -Wextra -Wpedantic -Wconversion -Werror -pthread".split()
    command = ["gcc", *flags, f"-I{TOP}/include", TOP / "bench" / f"{name}.c", library, "-o", folder / name]
    subprocess.run(command, check=True)
    return folder / name


def once(command, output, log):
    """Seconds and peak bytes of one run, its standard output in a file, its standard error in another.

    Linux counts to a child's peak what its parent had at the fork, so the parent has to be small: GNU time where
    it's installed, by which the last of several runs is made, and else a process of its own, of some 16 MB.
    """
    with open(output, "wb") as out, open(log, "wb") as err:
        start = time.monotonic()
        status, used = waited(subprocess.Popen(command, stdin=subprocess.DEVNULL, stdout=out, stderr=err))
        seconds = time.monotonic() - start
    return seconds, used.ru_maxrss * 1024, status


@functools.cache
def small_process():
    """A process without the streams that are made here, from which runs are begun."""
    return concurrent.futures.ProcessPoolExecutor(1, multiprocessing.get_context("spawn"))


def run(command, folder, repeats=REPEATS, output=None):
    """The best seconds of several runs, and the peak bytes; output, unless it goes elsewhere, and log lie in the folder."""
    runs, gnu_time, told = [], shutil.which("time"), folder / "peak"
    for turn in range(repeats):
        is_last = gnu_time and turn + 1 == repeats
        words = [gnu_time, "-f", "%M", "-o", str(told), *command] if is_last else command
        *measured, status = small_process().submit(once, words, output or folder / "output", folder / "log").result()
        if status != 0:
            sys.exit(f"{command[0]} ended with status {status}")
        runs.append(measured)
    peak = int(told.read_text()) * 1024 if gnu_time else max(peak for _, peak in runs)
    return min(seconds for seconds, _ in runs), peak


def copying(file, folder):
    """ffmpeg's command that copies a stream without decoding it."""
    return f"ffmpeg -v error -nostdin -y -f h264 -i {file} -c copy -f h264 {folder}/copy.264".split()


def planned(text, folder):
    """Writes a stream and plans it, of which every unit must be valid: seconds, peak bytes and units."""
    file = folder / "stream.264"
    file.write_bytes(text)
    seconds, peak = run([program(), "plan", str(file)], folder)
    lines = (folder / "output").read_bytes()
    if b" fault " in lines or b"refused" in lines:
        sys.exit("a unit isn't valid")
    return seconds, peak, lines.count(b"unit ")


def growth(name, texts, folder, beside=False):
    """Prints a line for each of some growing texts; whether time and memory grow no faster than they.

    With `beside`, ffmpeg copies each as well, where it is installed. Faster is by more than half.
    """
    print(name)
    linear, last = True, None
    for text in texts:
        seconds, peak, units = planned(text, folder)
        line = (f"{units:7} units {len(text):10} bytes {seconds:8.3f} s {units / seconds:9.0f} units/s "
                f"{len(text) / seconds / 1e6:8.1f} MB/s, peak {peak / 1e6:6.1f} MB, {peak / len(text):.1f} a byte")
        if beside and shutil.which("ffmpeg"):
            copy, _ = run(copying(folder / "stream.264", folder), folder)
            line += f"; ffmpeg -c copy {copy:.3f} s, {copy / seconds:.2f} times plan's"
        if last:
            size, time_taken, memory = len(text) / last[0], seconds / last[1], peak / last[2]
            linear = linear and max(time_taken, memory) <= 1.5 * size
            line += f"; {size:.1f} times the bytes: {time_taken:.1f} times the time, {memory:.1f} the memory"
        print(line, flush=True)
        last = len(text), seconds, peak
    print(f"  {'linear' if linear else 'more than linear'}")
    return linear

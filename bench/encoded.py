"""Streams of real sizes, by x264: drawn pictures with noise, an IDR picture every 250."""
import pathlib
import shutil
import sys

import measure    # noqa: F401: it makes the tools' package known
from cupdaisy.processes import piped

PERIOD = 250
# By its name: the size of its pictures, how many, the noise in them, and settings of x264.
STREAMS = {
    "small": ("320x240", 30_000, 6, "--bitrate 430 --bframes 2 --ref 2"),
    "large": ("1280x720", 250, 40, "--bitrate 65000 --bframes 2 --ref 2 --slices 4"),
    "large, of fewer bits": ("1280x720", 250, 40, "--bitrate 6500 --bframes 2 --ref 2 --slices 4"),
}
# A minute, for bench/many.
CLIP = {"clip": ("320x240", 1_500, 6, "--bitrate 430 --bframes 2 --ref 2")}
LARGE_AND_FEW = "large", "large, of fewer bits"


def encoded(name, folder):
    """The file of a stream of this name in the folder, encoded where it isn't there yet; nothing without ffmpeg and x264."""
    file = pathlib.Path(folder) / f"{name.replace(', ', '-').replace(' ', '-')}.264"
    if file.exists():
        return file
    if not shutil.which("ffmpeg") or not shutil.which("x264"):
        return None
    size, units, noise, settings = {**STREAMS, **CLIP}[name]
    drawn = f"testsrc2=size={size}:rate=25,noise=alls={noise}:allf=t"
    source = f"ffmpeg -v error -f lavfi -i {drawn} -frames:v {units} -pix_fmt yuv420p -f rawvideo -".split()
    coder = (f"x264 --quiet --demuxer raw --input-res {size} --fps 25 --preset veryfast --keyint {PERIOD}"
             f" --min-keyint {PERIOD} --no-scenecut --threads 1 {settings} -o {file}.part -").split()
    is_done, errors = piped(source, coder)
    if not is_done:
        sys.exit(f"{name}: x264 can't: {errors.strip()[-200:]}")
    pathlib.Path(f"{file}.part").rename(file)
    return file


def units_of(file):
    """The access units of a stream by x264, each a text of NAL units, from what stands in front of its first slice on."""
    text, units, begin, has_slice = file.read_bytes(), [], 0, False
    at = text.find(b"\0\0\1")
    while at >= 0:
        following = text.find(b"\0\0\1", at + 3)
        front = at - 1 if at and text[at - 1] == 0 else at
        kind = text[at + 3] & 31
        begins = kind in (6, 7, 8, 9) or kind in (1, 5) and text[at + 4] & 128
        if begins and has_slice:
            units.append(text[begin:front])
            begin, has_slice = front, False
        has_slice = has_slice or kind in (1, 5)
        at = following
    return [*units, text[begin:]]


def units_file(file, folder):
    """A file with the units of a stream, each behind its length, as bench/units.h reads it."""
    path = folder / "units"
    path.write_bytes(b"".join(len(unit).to_bytes(4, "little") + unit for unit in units_of(file)))
    return path

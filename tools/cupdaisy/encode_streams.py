"""Encodes small streams of each profile."""
import pathlib
import sys

from cupdaisy.command_line import NOT_INSTALLED, are_installed
from cupdaisy.processes import piped, run

PICTURES, SIZE = 120, "64x64"
# settings of x264 by the stream's name; the depth and the layout of samples stand first
STREAMS = {
    "baseline": (8, "i420", "--profile baseline --ref 1"),
    "baseline-4-slices": (8, "i420", "--profile baseline --ref 3 --slices 4"),
    "main-cavlc": (8, "i420", "--profile main --no-cabac --bframes 3 --weightp 0 --no-weightb"),
    "main-cabac-weights-1": (8, "i420", "--profile main --bframes 3 --weightp 1 --weightb"),
    "main-cabac-weights-2": (8, "i420", "--profile main --bframes 3 --weightp 2 --weightb --slices 4"),
    "main-pyramid-16-references": (8, "i420", "--profile main --bframes 8 --b-pyramid normal --ref 16 --keyint 40"),
    "high-8x8": (8, "i420", "--profile high --8x8dct --bframes 2 --b-pyramid strict --ref 4"),
    "high-cavlc-8x8": (8, "i420", "--profile high --8x8dct --no-cabac --weightp 2"),
    "high-jvt-matrices": (8, "i420", "--profile high --cqm jvt --bframes 2"),
    "high-custom-matrices": (8, "i420", "--profile high --cqm4 " + ",".join(map(str, range(16, 32)))
                             + " --cqm8 " + ",".join(str(16 + i // 2) for i in range(64))),
    "high-monochrome": (8, "i400", "--profile high --8x8dct --weightp 2 --bframes 3 --weightb"),
    "high-several-idr": (8, "i420", "--profile high --keyint 10 --min-keyint 10 --open-gop --ref 2"),
    "high-10": (10, "i420", "--profile high10 --bframes 3 --weightp 2 --slices 4"),
    "high-10-cavlc": (10, "i420", "--profile high10 --no-cabac --ref 8"),
    "high-10-monochrome": (10, "i400", "--profile high10 --weightp 2"),
    "high-422-8-bits": (8, "i422", "--profile high422 --bframes 3 --weightp 2"),
    "high-422-10-bits": (10, "i422", "--profile high422 --slices 4 --cqm jvt --b-pyramid normal --bframes 4"),
    "high-422-cavlc": (10, "i422", "--profile high422 --no-cabac --8x8dct"),
}
PIXELS = {(8, "i420"): "yuv420p", (8, "i422"): "yuv422p", (8, "i400"): "gray",
          (10, "i420"): "yuv420p10le", (10, "i422"): "yuv422p10le", (10, "i400"): "gray10le"}
OPEN_H264 = {
    "openh264": "",
    "openh264-slices": "slice-mode=n-slices num-slices=4",
    "openh264-deblocking-off": "deblocking=off complexity=high gop-size=20",
}


def pictures(pixels):
    """ffmpeg's command that draws the pictures, with fades, so that weights are worth their bits."""
    drawn = f"testsrc2=size={SIZE}:rate=25,fade=in:0:40,fade=out:80:40"
    return f"ffmpeg -v error -f lavfi -i {drawn} -frames:v {PICTURES} -pix_fmt {pixels} -f rawvideo -".split()


def encode(file, depth, layout, settings):
    """Encodes one stream with x264; whether it worked."""
    command = (f"x264 --quiet --demuxer raw --input-res {SIZE} --fps 25 --input-csp {layout} --input-depth {depth}"
               f" --output-csp {layout} --output-depth {depth} --preset fast {settings} -o {file} -").split()
    is_done, errors = piped(pictures(PIXELS[depth, layout]), command)
    if not is_done:
        print(f"{file.name}: x264 can't: {errors.strip()[-200:]}")
        file.unlink(missing_ok=True)
    return is_done


def encode_open(file, settings):
    """Encodes one stream with OpenH264, where it can be."""
    command = (f"gst-launch-1.0 -q videotestsrc num-buffers={PICTURES} pattern=smpte ! video/x-raw,width=64,height=64"
               f" ! openh264enc {settings} ! video/x-h264,stream-format=byte-stream ! filesink location={file}").split()
    if not are_installed(command[0]) or run(command).status != 0:
        print(f"{file.name}: OpenH264 can't")
        file.unlink(missing_ok=True)


def main(doc):
    if len(sys.argv) != 2:
        sys.exit(doc)
    if not are_installed("ffmpeg", "x264"):
        print("ffmpeg or x264 is not installed")
        return NOT_INSTALLED
    folder = pathlib.Path(sys.argv[1])
    folder.mkdir(parents=True, exist_ok=True)
    made = [encode(folder / f"{name}.264", *settings) for name, settings in STREAMS.items()]
    for name, settings in OPEN_H264.items():
        encode_open(folder / f"{name}.264", settings)
    return 0 if all(made) else 1

"""Pictures by ffmpeg, for a browser that can't decode: JPEG files of units."""
import shutil
import subprocess

from access_units import sets_before

END = b"\xff\xd9"    # of a JPEG file; within one it can't stand


def can_decode():
    return shutil.which("ffmpeg") is not None


def pictures_of(stream, ids, width):
    """The pictures of these units, by id: from the last IDR picture before the first of them on. ffmpeg says of none which unit it is
    of, so they are taken by their output order, and none is told where their number isn't that of the units."""
    places = [place for place, unit_id in enumerate(stream.ids) if unit_id in ids]
    if not places:
        return {}
    begin = next((place for place in range(places[0], -1, -1) if stream.units[place].is_idr and "position" in stream.outcomes[place]), None)
    if begin is None:
        return {}
    run = [place for place in range(begin, places[-1] + 1) if "position" in stream.outcomes[place]]
    text = sets_before(stream.units, begin) + b"".join(stream.units[place].text for place in run)
    command = ["ffmpeg", "-v", "quiet", "-f", "h264", "-i", "pipe:", "-vf", f"scale={width}:-2", "-fps_mode", "passthrough",
               "-c:v", "mjpeg", "-q:v", "3", "-f", "image2pipe", "pipe:"]
    files = subprocess.run(command, input=text, capture_output=True).stdout.split(END)[:-1]
    run.sort(key=lambda place: stream.outcomes[place]["position"])
    if len(files) != len(run):
        return {}
    return {stream.ids[place]: file + END for place, file in zip(run, files) if place in places}

"""The program bench/decode_stream: a stream planned, and decoded by the stand-in device.

It is no crate of the workspace, so that the gate doesn't prove it; its code is called main.rt.txt, since the gate wants
each .rt file in a crate. It is built in a temporary workspace, beside copies of the crates that it stands on with what was
proved of them, so these are best proved before (`rt all check`).
"""
import functools
import pathlib
import shutil
import subprocess
import sys
import tempfile

from cupdaisy.workspace import TOP, below_all, lines_of

NAME = "decode_stream"
LIBRARIES = ["access_unit", "request_core", "unit_outcomes", "h264_controls", "stand_in_device", "h264_types"]
KIT_LIBRARIES = ["bytes"]
SOURCE = TOP / "bench" / NAME
BUILT = SOURCE / "out" / NAME
LOG = BUILT.with_name("build.log")


def sources():
    """All files of code that the program is made of."""
    yield from (SOURCE / "src").iterdir()
    for crate in below_all(LIBRARIES):
        yield from (TOP / "crates" / crate / "src").rglob("*.rt")


def build():
    """Builds the program in a workspace of its own."""
    print(f"building {NAME}: what isn't proved yet of the crates below it takes minutes", file=sys.stderr)
    with tempfile.TemporaryDirectory(prefix=NAME) as folder:
        room = pathlib.Path(folder)
        for crate in below_all(LIBRARIES):
            shutil.copytree(TOP / "crates" / crate, room / "crates" / crate)
        shutil.copytree(SOURCE, room / "crates" / NAME, ignore=shutil.ignore_patterns("out"))
        main = room / "crates" / NAME / "src" / "main.rt"
        main.with_name("main.rt.txt").rename(main)
        shutil.copy(TOP / "HANDLES", room)
        named = " ".join(LIBRARIES + KIT_LIBRARIES)
        (room / "crates.txt").write_text(lines_of(below_all(LIBRARIES)) + f"{NAME}: {named}\n")
        BUILT.parent.mkdir(exist_ok=True)
        with open(LOG, "wb") as log:
            ran = subprocess.run(["rt", "run", "--", TOP / "samples" / "clock.264"], cwd=room / "crates" / NAME,
                                 stdout=subprocess.DEVNULL, stderr=log)
        if ran.returncode != 0:
            sys.exit(f"{NAME} could not be built; the log is {LOG}")
        shutil.copy(room / "crates" / NAME / "out" / NAME, BUILT)


@functools.cache
def program():
    """The built program, which is built first where it is missing or older than a source."""
    if not BUILT.exists() or any(file.stat().st_mtime > BUILT.stat().st_mtime for file in sources()):
        build()
    return str(BUILT)

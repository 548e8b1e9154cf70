"""The repository's top, the crates of crates.txt with their sources, copies of them, and the toolchain's folder."""
import pathlib
import re
import shutil

from cupdaisy import processes

TOP = pathlib.Path(__file__).resolve().parent.parent.parent
SAMPLES = TOP / "samples"
LINE = re.compile(r"(\w+)[^:]*:(.*)")


def crates():
    """The crates in the order of crates.txt, each with the crates among them that it stands on."""
    lines = (line.partition("#")[0] for line in (TOP / "crates.txt").read_text().splitlines())
    listed = {found[1]: found[2].split() for found in map(LINE.match, lines) if found}
    return {name: [below for below in libraries if below in listed] for name, libraries in listed.items()}


def below(name):
    """The crates that a crate stands on, in the order of crates.txt."""
    return below_all(crates()[name])


def below_all(names):
    """These crates and those that they stand on, in the order of crates.txt."""
    listed, found, left = crates(), set(names), list(names)
    while left:
        more = set(listed[left.pop()]) - found
        found |= more
        left += more
    return [crate for crate in listed if crate in found]


def lines_of(names):
    """The lines of crates.txt of these crates."""
    lines = (TOP / "crates.txt").read_text().splitlines(keepends=True)
    return "".join(line for line in lines if re.match(r"\w*", line)[0] in names)


def copy_of(names, folder):
    """Copies crates and those below them into a folder, these without their edits, and all without what was built of them."""
    copied = below_all(names)
    (folder / "crates.txt").write_text(lines_of(copied))
    shutil.copy(TOP / "HANDLES", folder)
    for crate in copied:
        left_out = shutil.ignore_patterns("out", *([] if crate in names else ["must-fail", "more-edits"]))
        shutil.copytree(TOP / "crates" / crate, folder / "crates" / crate, ignore=left_out)


def sources_of(*names):
    """The paths from the top of the files that these crates are built from."""
    return processes.printed([TOP / "tools/sources", "--files", *names], cwd=TOP).splitlines()


def checksum_of(*names):
    """The checksum of these files."""
    return processes.printed([TOP / "tools/sources", *names], cwd=TOP).rstrip("\n")


def kit():
    """The toolchain's folder."""
    return pathlib.Path(processes.printed(["rt", "doc"], cwd=TOP).rstrip("\n")).parent

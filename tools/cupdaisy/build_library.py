"""Builds a static library over what `rt ci` left of the crates below it, for a machine."""
import os
import subprocess
import sys

from cupdaisy import workspace
from cupdaisy.command_line import NOT_INSTALLED, are_installed, parser_of

# The machines, by the names of their folders in dist/ and of the compiler's targets.
TARGETS = {"x86_64-linux": "x86_64-unknown-linux-gnu", "aarch64-linux": "aarch64-unknown-linux-gnu"}


def are_left_by_ci(names):
    """Whether the libraries of these crates are there, each without the stamp of one that `rt check` or `rt lib` built, and
    younger than their sources."""
    rooms = {name: workspace.TOP / "crates" / name / "out/rlib" for name in names}
    if any((room / "stamp").exists() or not (room / f"{name}.rlib/format").exists() for name, room in rooms.items()):
        return False
    newest = max((workspace.TOP / path).stat().st_mtime_ns for path in workspace.sources_of(*names))
    return all(room.stat().st_mtime_ns > newest for room in rooms.values())


def crate_of(name):
    """The crate, by the module of which rt is made."""
    sys.dont_write_bytecode = True
    sys.path.insert(0, str(workspace.kit() / "bin"))
    import rtlib
    return rtlib.Crate(str(workspace.TOP / "crates" / name), str(workspace.TOP), {})


def are_there(crate):
    """Whether the libraries below the crate are there, of these sources: those that `rt ci` left, or `rt lib`."""
    return are_left_by_ci(workspace.below(crate.name)) or all(library.is_built() for library in crate.below())


def main(doc):
    parser = parser_of(doc)
    parser.add_argument("name", metavar="NAME", choices=workspace.crates())
    parser.add_argument("target", metavar="TARGET", choices=TARGETS, nargs="?", default="x86_64-linux")
    options = parser.parse_args()
    if not are_installed("rt"):
        print('build-library: the toolchain isn\'t there: no rt is in PATH, and it isn\'t public (README.md, "Check it")', file=sys.stderr)
        return NOT_INSTALLED
    crate = crate_of(options.name)
    if not are_there(crate):
        status = subprocess.run(["rt", "lib"], cwd=crate.folder).returncode
        if status:
            return status
    os.chdir(crate.folder)
    os.makedirs(f"out/{options.target}", exist_ok=True)
    return crate.compile(["--target", TARGETS[options.target]], f"out/{options.target}/lib{options.name}.a")

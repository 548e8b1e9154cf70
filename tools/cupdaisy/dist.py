"""Makes dist/ of what is built, and compares it with that."""
import hashlib
import os
import pathlib
import shutil
import subprocess
import tempfile
from typing import NamedTuple

from cupdaisy.build_library import TARGETS
from cupdaisy.command_line import are_installed, parser_of
from cupdaisy.processes import printed, printed_with_errors
from cupdaisy.workspace import TOP, checksum_of, crates, kit, sources_of

DIST = TOP / "dist"
MANIFEST = DIST / "MANIFEST"


class File(NamedTuple):
    """A file of dist/: the crate that it's built of, its path in dist/ and where it's built, the options by which llvm-strip
    makes it less, and the command that builds it where `rt ci` doesn't."""
    crate: str
    path: str
    built: str
    strip: tuple = ()
    build: tuple = ()


def library_for(target):
    """The library for a machine."""
    return File("cupdaisy", f"{target}/libcupdaisy.a", f"crates/cupdaisy/out/{target}/libcupdaisy.a",
                build=("tools/build-library", "cupdaisy", target))


FILES = (File("preview", "x86_64-linux/preview", "crates/preview/out/preview", strip=("--strip-all",)),
         *map(library_for, TARGETS))


class Manifest(NamedTuple):
    """What dist/ was made of, and the checksums of its files by their paths."""
    sources: str
    crates: list
    toolchain: str
    files: dict


class NotBuilt(Exception):
    """What a file of dist/ has to be can't be told, for this reason."""


def toolchain():
    """The toolchain's line."""
    return printed(["rt", "version"]).rstrip("\n")


def checksum(data):
    return hashlib.sha256(data).hexdigest()


def wanted_files():
    """The files that dist/ is to have."""
    listed = crates()
    return [file for file in FILES if file.crate in listed]


def content_of(file):
    """What a file of dist/ has to be, from what is built."""
    why = not_current(file)
    if why and file.build:
        _, told = printed_with_errors(file.build, cwd=TOP)
        why = not_current(file)
        print(told if why else "", end="")
    if why:
        raise NotBuilt(why)
    built = TOP / file.built
    return stripped(built, file.strip) if file.strip else built.read_bytes()


def not_current(file):
    """Why what is built isn't of these sources; nothing where it is."""
    built = TOP / file.built
    if not built.is_file():
        return f"{file.built} isn't there: build it first"
    newest = max(sources_of(file.crate), key=lambda path: (TOP / path).stat().st_mtime_ns)
    if (TOP / newest).stat().st_mtime_ns > built.stat().st_mtime_ns:
        return f"{file.built} is older than {newest}: build it first"
    return None


def stripped(built, options):
    """A built file after llvm-strip."""
    with tempfile.TemporaryDirectory(prefix="dist-") as room:
        less = pathlib.Path(room, built.name)
        subprocess.run(["llvm-strip", *options, "-o", less, built], executable=kit() / "toolchain/bin/clang", check=True)
        return less.read_bytes()


def stop_on_unknown(names):
    """Stops at a source of these crates that git doesn't know, since no other checkout has it."""
    known = set(printed(["git", "ls-files", "-z"], cwd=TOP).split("\0"))
    for path in sources_of(*names):
        if path not in known:
            raise NotBuilt(f"git doesn't know {path}: add it, or remove it")


def make():
    """Writes dist/ anew; whether it could."""
    names = list(dict.fromkeys(file.crate for file in wanted_files()))
    try:
        stop_on_unknown(names)
        contents = [(file, content_of(file)) for file in wanted_files()]
    except NotBuilt as error:
        print(f"dist: nothing is written: {error}")
        return False
    lines = [f"sources {checksum_of(*names)} of {' '.join(names)}", f"toolchain {toolchain()}"]
    shutil.rmtree(DIST, ignore_errors=True)
    for file, content in contents:
        path = DIST / file.path
        path.parent.mkdir(parents=True, exist_ok=True)
        path.write_bytes(content)
        path.chmod(0o755 if is_program(TOP / file.built) else 0o644)
        lines.append(f"file {checksum(content)} {file.path}")
        print(f"dist: wrote dist/{file.path}, {len(content):,} bytes")
    MANIFEST.write_text("\n".join(lines) + "\n")
    return True


def is_program(path):
    return os.access(path, os.X_OK)


def manifest():
    """What dist/MANIFEST says; nothing where it isn't there."""
    if not MANIFEST.is_file():
        return None
    said = Manifest("", [], "", {})
    for line in MANIFEST.read_text().splitlines():
        word, _, rest = line.partition(" ")
        if word == "sources":
            sources, *names = rest.split()
            said = said._replace(sources=sources, crates=names[1:])
        elif word == "toolchain":
            said = said._replace(toolchain=rest)
        elif word == "file":
            total, _, path = rest.partition(" ")
            said.files[path] = total
    return said


def check():
    """Compares dist/ with what is built, and prints what differs; whether nothing does."""
    said = manifest()
    if not said:
        print("dist: there is no dist/MANIFEST: nothing is compared")
    elif said.sources != checksum_of(*said.crates):
        print("dist: dist/MANIFEST names other sources than these: nothing is compared")
    elif said.toolchain != toolchain():
        print(f"dist: dist/MANIFEST names another toolchain, {said.toolchain}: nothing is compared")
    else:
        amiss = all_amiss(said)
        print(*[f"dist: {line}" for line in amiss] or ["dist: each file is what was built of these sources"], sep="\n")
        return not amiss
    return True


def all_amiss(said):
    """A line for each file of dist/ that isn't what it has to be."""
    wanted = {file.path: file for file in wanted_files()}
    there = {str(path.relative_to(DIST)) for path in DIST.rglob("*") if not path.is_dir()} - {MANIFEST.name}
    lines = []
    for path in sorted({*wanted, *there, *said.files}):
        why = amiss(path, wanted.get(path), said.files.get(path))
        lines += [f"dist/{path} {why}"] if why else []
    return lines


def amiss(path, file, total):
    """What is wrong with a file of dist/, whose checksum is to be this; nothing where it's as it has to be."""
    if not file:
        return "is none of the files that are made"
    if not (DIST / path).is_file():
        return "isn't there"
    found = (DIST / path).read_bytes()
    try:
        content = content_of(file)
    except NotBuilt as error:
        return f"can't be compared: {error}"
    if found != content:
        return f"differs from what was built, {file.built}, first at byte {first_difference(found, content) + 1:,}"
    if total != checksum(found):
        return "has another checksum than dist/MANIFEST names"
    if is_program(DIST / path) != is_program(TOP / file.built):
        return "has lost or gained the leave to be run"
    return None


def find(path):
    """Prints the path of a file of dist/ that was built of these sources; whether it's there."""
    said, found = manifest(), DIST / path
    if os.environ.get("CUPDAISY_BUILD") == "1" or not said or path not in said.files or not found.is_file():
        return False
    if said.files[path] != checksum(found.read_bytes()):
        return False
    if said.sources != checksum_of(*said.crates):
        return False
    print(found.relative_to(TOP))
    return True


def first_difference(one, other):
    """The least place where two texts differ, which may be the shorter one's end."""
    return next((at for at, pair in enumerate(zip(one, other)) if pair[0] != pair[1]), min(len(one), len(other)))


def main(doc):
    parser = parser_of(doc)
    way = parser.add_mutually_exclusive_group(required=True)
    way.add_argument("--make", action="store_true")
    way.add_argument("--check", action="store_true")
    way.add_argument("--find", metavar="FILE")
    options = parser.parse_args()
    if options.find:
        return 0 if find(options.find) else 1
    if not are_installed("rt"):
        print("dist: the toolchain isn't there: no rt is in PATH")
        return 1
    return 0 if (make() if options.make else check()) else 1

"""Installs Debian's packages in a bare system, uses them there, and removes them."""
import os
import pathlib
import shutil
import subprocess
import tempfile

from cupdaisy.command_line import NOT_INSTALLED, are_installed, parser_of
from cupdaisy.processes import printed_with_errors
from cupdaisy.program import program
from cupdaisy.workspace import SAMPLES, TOP

SUITE, MIRROR = "bookworm", "http://deb.debian.org/debian"
# What is needed to use the packages; python3-venv and its like for pip alone.
NEEDED = ("gcc", "g++", "libc6-dev", "linux-libc-dev", "pkg-config", "python3", "python3-venv", "python3-pip", "python3-setuptools",
          "python3-wheel")
FILES = ("clock.264", "cuts.264", "bframes.264")
WARNINGS = "-Wall -Wextra -Wpedantic -Wconversion -Werror"
# Folders of which files may come and go.
CHANGING = ("proc", "sys", "dev", "tmp", "run", "var/cache", "var/lib/apt", "var/lib/dpkg", "var/log", "srv")
LINKS = {"shared": "cupdaisy", "static": "cupdaisy-static"}


class Failed(Exception):
    """Something isn't as it has to be."""


def run(command, **how):
    """What a command prints, which has to end with status 0."""
    status, told = printed_with_errors(command, **how)
    if status != 0:
        raise Failed(f"{' '.join(map(str, command))} ends with status {status}:\n{told}")
    return told


class System:
    """A bare system in a folder."""

    def __init__(self, root):
        self.root = root

    def make(self, base):
        """Makes it by debootstrap, or of what that left before."""
        if base and base.exists():
            run(["tar", "--extract", "--file", base, "--directory", self.root])
            return
        run(["debootstrap", "--variant=minbase", SUITE, self.root, MIRROR])
        self.apt("update")
        self.apt("install", "--yes", "--no-install-recommends", *NEEDED)
        self.apt("clean")
        if base:
            run(["tar", "--create", "--file", base, "--directory", self.root, "."])

    def inside(self, *words, **how):
        """Runs a command in it."""
        env = {"PATH": "/usr/sbin:/usr/bin:/sbin:/bin", "LC_ALL": "C.UTF-8", "DEBIAN_FRONTEND": "noninteractive", "HOME": "/srv"}
        return run(["chroot", self.root, *words], env=env, **how)

    def shell(self, line):
        """Runs a line of a shell in its folder of what is tried."""
        return self.inside("sh", "-ec", f"cd /srv && {line}")

    def apt(self, *words):
        return self.inside("apt-get", "--quiet", *words)

    def files(self):
        """The files that stay as they are while nothing is installed."""
        found = set()
        for folder, folders, names in os.walk(self.root):
            at = pathlib.Path(folder).relative_to(self.root)
            folders[:] = [name for name in folders if str(at / name) not in CHANGING]
            found |= {str(at / name) for name in [*folders, *names]}
        return found


def expect(what, found, wanted):
    if found != wanted:
        raise Failed(f"{what}: {found!r}, and not {wanted!r}")
    print(f"check-packages: {what} ok", flush=True)


def made_packages(folder, room):
    """The packages of a folder, or without one new ones, of which lintian has nothing to say."""
    if not folder:
        folder = room / "packages"
        run([TOP / "tools/build-packages", "--to", folder])
    paths = sorted(folder.glob("*.deb"))
    if are_installed("lintian"):
        expect("lintian", run(["lintian", "--allow-root", "--fail-on", "none", *paths]), "")
    else:
        print("check-packages: lintian isn't there, so it has said nothing")
    return paths


def bring(system, packages):
    """Puts packages, samples and examples into the system; the packages' paths in it."""
    room = system.root / "srv"
    own = [path for path in packages if path.stem.endswith(("_amd64", "_all"))]
    for path in [*own, *(SAMPLES / name for name in FILES), *(TOP / "examples").glob("embed*"), TOP / "examples/file.h"]:
        shutil.copy(path, room)
    shutil.copytree(TOP / "python", room / "python", ignore=shutil.ignore_patterns("__pycache__"))
    shutil.copytree(SAMPLES, room / "samples")
    return [f"/srv/{path.name}" for path in own]


def check_program(system):
    for name in FILES:
        expect(f"preview plan {name}", system.shell(f"preview plan {name}"), run([program(), "plan", SAMPLES / name]))
    line = "source /usr/share/bash-completion/completions/preview; COMP_WORDS=(preview pla); COMP_CWORD=1; _preview; echo ${COMPREPLY[@]}"
    expect("completion", system.inside("bash", "-c", line), "plan\n")


def build_in_c(system):
    """Builds the examples, over the shared library and over the archive; the commands that run them."""
    commands = []
    for kind, name in LINKS.items():
        system.shell(f"gcc -std=c99 {WARNINGS} embed.c $(pkg-config --cflags --libs {name}) -o embed-{kind}")
        system.shell(f"g++ -std=c++11 {WARNINGS} embed_cpp.cpp $(pkg-config --cflags --libs {name}) -o embed_cpp-{kind}")
        commands += [f"./embed-{kind}", f"./embed_cpp-{kind}"]
    return commands


def build_in_rust(system):
    """Builds the crate's example by this machine's cargo against the library in the system; the commands that run it."""
    if not are_installed("cargo", "cc"):
        print("check-packages: cargo isn't there, so the crate wasn't tried")
        return []
    commands, libraries = [], system.root / "usr/lib/x86_64-linux-gnu"
    for kind, pattern in {"static": "*.a", "shared": "*.so*"}.items():
        folder = system.root / "srv" / f"rust-{kind}"
        folder.mkdir()
        for path in libraries.glob(f"libcupdaisy{pattern}"):
            shutil.copy(path, folder)
        env = {**os.environ, "CUPDAISY_LIB_DIR": str(folder), "CARGO_TARGET_DIR": str(folder / "target")}
        run(["cargo", "build", "--offline", "--quiet", "--example", "embed"], cwd=TOP / "rust/cupdaisy", env=env)
        shutil.copy(folder / "target/debug/examples/embed", system.root / "srv" / f"embed_rust-{kind}")
        commands.append(f"./embed_rust-{kind}")
    return commands


def check_examples(system):
    """The examples in each language print the same of each sample."""
    commands = [*build_in_c(system), *build_in_rust(system), "python3 embed.py"]
    for name in FILES:
        wanted = system.shell(f"{commands[0]} {name}")
        if not wanted.startswith("decoded ") or wanted.count("\n") != 3:
            raise Failed(f"{commands[0]} {name} prints {wanted!r}")
        for command in commands[1:]:
            expect(f"{command} {name}", system.shell(f"{command} {name}"), wanted)


def check_module(system):
    """The module that pip installs, over the library of the packages."""
    system.shell("python3 -m venv --system-site-packages environment")
    system.shell("environment/bin/pip install --quiet --no-index --no-build-isolation ./python")
    where = system.shell("environment/bin/python -c 'import cupdaisy; print(cupdaisy.__file__)'")
    expect("what pip installs", where.startswith("/srv/environment/"), True)
    # Away from python/, which would be found first.
    told = system.shell("mv python/tests environment && cd environment && "
                        "CUPDAISY_SAMPLES=/srv/samples CUPDAISY_INCLUDE_DIR=/usr/include bin/python -m unittest discover -s tests 2>&1")
    expect("the module's tests", told.rstrip().endswith("OK"), True)


def check(system, options, room):
    packages = made_packages(options.packages, room)
    system.make(options.base)
    paths = bring(system, packages)
    before = system.files()
    system.apt("install", "--yes", "--no-install-recommends", *paths)
    check_program(system)
    check_examples(system)
    check_module(system)
    system.apt("purge", "--yes", "cupdaisy", "libcupdaisy0", "libcupdaisy-dev", "python3-cupdaisy")
    expect("what is left", sorted(system.files() - before), [])


def main(doc):
    parser = parser_of(doc)
    parser.add_argument("--base", metavar="FILE", type=lambda text: pathlib.Path(text).resolve())
    parser.add_argument("--packages", metavar="FOLDER", type=lambda text: pathlib.Path(text).resolve())
    options = parser.parse_args()
    if os.geteuid() != 0 or not are_installed("debootstrap", "dpkg-deb", "chroot", "tar", "make", "gcc"):
        print("check-packages: this takes root, debootstrap, dpkg-deb, make and gcc, so the packages weren't tried")
        return NOT_INSTALLED
    with tempfile.TemporaryDirectory(prefix="check-packages-") as room:
        root = pathlib.Path(room) / "root"
        root.mkdir(mode=0o755)
        try:
            check(System(root), options, pathlib.Path(room))
        except (Failed, subprocess.CalledProcessError) as fault:
            print(f"check-packages: {fault}")
            return 1
    print("check-packages: ok")
    return 0

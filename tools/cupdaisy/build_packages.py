"""Makes Debian's packages of what `make install` installs."""
import email.utils
import gzip
import hashlib
import os
import pathlib
import re
import shutil
import subprocess
import tempfile
from typing import NamedTuple

from cupdaisy.command_line import NOT_INSTALLED, are_installed, parser_of
from cupdaisy.processes import printed
from cupdaisy.workspace import TOP

MAINTAINER = "Cupdaisy maintainers <maintainers@users.noreply.cupdaisy.example>"
# What is removed of a file that has debugging symbols, by its name.
STRIPPED = {"libcupdaisy.a": "--strip-debug", "libcupdaisy.so": "--strip-unneeded"}
COMPILE = """#!/bin/sh
set -e
if command -v py3compile >/dev/null; then py3compile -p {package}; fi
"""
CLEAN = """#!/bin/sh
set -e
if command -v py3clean >/dev/null; then py3clean -p {package}; fi
"""


class Machine(NamedTuple):
    """A machine that packages are made for: Debian's name, the folder of its libraries, its compiler, and where make builds."""
    name: str
    libraries: str
    compiler: str
    build: str


MACHINES = (Machine("amd64", "x86_64-linux-gnu", "gcc", "build"),
            Machine("arm64", "aarch64-linux-gnu", "aarch64-linux-gnu-gcc", "build/aarch64-linux"))


class Failed(Exception):
    """A package can't be made, for this reason."""


def version():
    """The version that the Makefile gives."""
    return re.search(r"^VERSION = (.*)$", (TOP / "Makefile").read_text(), re.MULTILINE)[1]


def epoch():
    """The age of all files, in seconds."""
    named = os.environ.get("SOURCE_DATE_EPOCH")
    if named:
        return int(named)
    if are_installed("git") and (TOP / ".git").exists():
        return int(printed(["git", "log", "-1", "--format=%ct"], cwd=TOP))
    return int((TOP / "CHANGELOG.md").stat().st_mtime)


def paragraphs():
    """The packages of packages/control: their fields by names."""
    text = re.sub(r"(?m)^#.*\n", "", (TOP / "packages/control").read_text())
    return [dict(re.findall(r"(?m)^([\w-]+): (.*(?:\n .*)*)", each)) for each in text.strip().split("\n\n")]


def tool(machine, name):
    """A tool for a machine's files."""
    return printed([machine.compiler, f"-print-prog-name={name}"]).strip()


def install(machine, stage):
    """Puts all that a machine's packages have below a folder."""
    subprocess.run(["make", "--silent", f"CC={machine.compiler}", f"BUILD={machine.build}", f"DESTDIR={stage}", "PREFIX=/usr",
                    f"LIBDIR=/usr/lib/{machine.libraries}", "install"], cwd=TOP, check=True,
                   env={**os.environ, "MAKEFLAGS": ""})
    strip = tool(machine, "strip")
    for path in [path for path in stage.rglob("*") if path.is_file() and not path.is_symlink()]:
        for begin, option in STRIPPED.items():
            if path.name.startswith(begin):
                subprocess.run([strip, "--remove-section=.comment", option, path], check=True)
    for page in (stage / "usr/share/man").rglob("*.[1-9]"):
        write(page.with_name(page.name + ".gz"), gzipped(page.read_bytes()))
        page.unlink()


def install_module(stage):
    """Puts the module for Python below a folder."""
    to = stage / "usr/lib/python3/dist-packages"
    for path in sorted((TOP / "python/cupdaisy").glob("*.py")) + [TOP / "python/cupdaisy/py.typed"]:
        write(to / "cupdaisy" / path.name, path.read_bytes())
    told = f"Metadata-Version: 2.1\nName: cupdaisy\nVersion: {version()}\nSummary: {paragraphs()[-1]['Description'].splitlines()[0]}\n"
    write(to / f"cupdaisy-{version()}.dist-info/METADATA", told.encode())


def install_completions(stage):
    """Moves zsh's completion to where Debian has those of packages."""
    of_zsh = stage / "usr/share/zsh"
    if (of_zsh / "site-functions").exists():
        (of_zsh / "site-functions").rename(of_zsh / "vendor-completions")


def write(path, data, mode=0o644):
    path.parent.mkdir(parents=True, exist_ok=True)
    path.write_bytes(data)
    path.chmod(mode)


def gzipped(data):
    return gzip.compress(data, 9, mtime=0)


def changelog(package):
    """Debian's own changes of a package."""
    date = email.utils.formatdate(epoch())
    return f"{package} ({version()}) unstable; urgency=medium\n\n  * What is new is in NEWS.gz.\n\n -- {MAINTAINER}  {date}\n"


def files_in(root):
    """The files and links below a folder, but for what the package itself is."""
    return sorted(path for path in root.rglob("*") if "DEBIAN" not in path.parts and (path.is_symlink() or path.is_file()))


def least_libc(root):
    """The least version of glibc that some file asks for."""
    found = [tuple(map(int, each.split(b"."))) for path in files_in(root) if not path.is_symlink()
             for each in re.findall(rb"GLIBC_(\d+\.\d+)", path.read_bytes())]
    return ".".join(map(str, max(found, default=(2, 17))))


def fill(fields, stage, root):
    """Puts a package's files into its folder."""
    for pattern in fields["Files"].split():
        for path in sorted(stage.glob(pattern)):
            to = root / path.relative_to(stage)
            to.parent.mkdir(parents=True, exist_ok=True)
            if path.is_dir():
                shutil.copytree(path, to, symlinks=True)
            else:
                shutil.copy2(path, to, follow_symlinks=False)
    if not files_in(root):
        raise Failed(f"{fields['Package']} has no file")
    documents = root / "usr/share/doc" / fields["Package"]
    write(documents / "copyright", (TOP / "packages/copyright").read_bytes())
    write(documents / "NEWS.gz", gzipped((TOP / "CHANGELOG.md").read_bytes()))
    write(documents / "changelog.gz", gzipped(changelog(fields["Package"]).encode()))


def control(fields, architecture, root):
    """The control file of a package."""
    size = sum(-(-path.lstat().st_size // 1024) for path in files_in(root))
    told = {"Package": fields["Package"], "Version": version(), "Architecture": architecture, "Maintainer": MAINTAINER,
            "Installed-Size": size, "Depends": fields["Depends"], "Section": fields["Section"], "Priority": "optional",
            "Multi-Arch": fields.get("Multi-Arch"), "Description": fields["Description"]}
    text = "".join(f"{name}: {value}\n" for name, value in told.items() if value)
    return text.format(version=version(), libc=least_libc(root))


def symbols(machine, root):
    """What the shared library exports, and since when."""
    library, = [path for path in root.rglob("libcupdaisy.so.*") if not path.is_symlink()]
    names = [line.split()[-1] for line in printed([tool(machine, "nm"), "-D", "--defined-only", library]).splitlines()]
    lines = "".join(f" {name}@Base {version()}\n" for name in sorted(names))
    return f"libcupdaisy.so.0 libcupdaisy0 (>= {version()})\n* Build-Depends-Package: libcupdaisy-dev\n{lines}"


def make(fields, machine, stage, to):
    """Makes a package, and prints its path."""
    package = fields["Package"]
    architecture = "all" if fields["For"] == "all" else machine.name
    root = stage.parent / package
    fill(fields, stage, root)
    own = root / "DEBIAN"
    write(own / "control", control(fields, architecture, root).encode())
    sums = [(hashlib.md5(path.read_bytes()).hexdigest(), path) for path in files_in(root) if not path.is_symlink()]
    write(own / "md5sums", "".join(f"{each}  {path.relative_to(root)}\n" for each, path in sums).encode())
    if package == "libcupdaisy0":
        write(own / "shlibs", f"libcupdaisy 0 libcupdaisy0 (>= {version()})\n".encode())
        write(own / "symbols", symbols(machine, root).encode())
        write(own / "triggers", b"activate-noawait ldconfig\n")
    if package.startswith("python3-"):
        write(own / "postinst", COMPILE.format(package=package).encode(), 0o755)
        write(own / "prerm", CLEAN.format(package=package).encode(), 0o755)
    for path in [root, *root.rglob("*")]:
        if not path.is_symlink():
            path.chmod(0o755 if path.is_dir() or path.stat().st_mode & 0o100 else 0o644)
        os.utime(path, (epoch(), epoch()), follow_symlinks=False)
    made = to / f"{package}_{version()}_{architecture}.deb"
    subprocess.run(["dpkg-deb", "--root-owner-group", "-Zxz", "--build", root, made], check=True, stdout=subprocess.DEVNULL,
                   env={**os.environ, "SOURCE_DATE_EPOCH": str(epoch())})
    print(made, flush=True)


def made_for(machine, to, room):
    """Makes the packages of a machine, and with the first one those of every machine."""
    stage = room / machine.name / "stage"
    install(machine, stage)
    install_completions(stage)
    install_module(stage)
    for fields in paragraphs():
        if machine.name in fields["For"].split() or fields["For"] == "all" and machine == MACHINES[0]:
            make(fields, machine, stage, to)


def main(doc):
    parser = parser_of(doc)
    parser.add_argument("--to", metavar="FOLDER", type=pathlib.Path, default=TOP / "build/packages")
    parser.add_argument("machines", metavar="MACHINE", nargs="*", choices=[[], *(machine.name for machine in MACHINES)])
    options = parser.parse_args()
    to = options.to.resolve()
    if not are_installed("dpkg-deb", "make", "gcc") or os.uname().machine != "x86_64":
        print("build-packages: dpkg-deb, make or gcc isn't there, or this machine isn't amd64, so no package was made")
        return NOT_INSTALLED
    shutil.rmtree(to, ignore_errors=True)
    to.mkdir(parents=True)
    with tempfile.TemporaryDirectory(prefix="build-packages-") as room:
        for machine in MACHINES:
            if options.machines and machine.name not in options.machines:
                continue
            if not are_installed(machine.compiler):
                print(f"build-packages: {machine.compiler} isn't there, so there are no packages for {machine.name}")
                continue
            try:
                made_for(machine, to, pathlib.Path(room))
            except (Failed, subprocess.CalledProcessError) as fault:
                print(f"build-packages: {fault}")
                return 1
    return 0

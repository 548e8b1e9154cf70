"""Checks in a fresh clone that bin/preview runs dist's program where it may, and that the gate compares it."""
import contextlib
import os
import pathlib
import re
import shutil
import subprocess
import tempfile
import time
from typing import NamedTuple

from cupdaisy import processes
from cupdaisy.command_line import are_installed, parser_of
from cupdaisy.dist import wanted_files
from cupdaisy.workspace import TOP

SECONDS, NOBODY = 2, 65534
# What a shell script of tools/ may call.
COMMANDS = "awk cat date dirname find mkdir mv rm sh sha256sum sort uname xargs".split()
PROGRAM, FOR_ARM = "dist/x86_64-linux/preview", "dist/aarch64-linux/libcupdaisy.a"
CROSS_COMPILER, EMULATOR = "aarch64-linux-gnu-gcc", "qemu-aarch64"
# Where commands are, but for the toolchain.
SYSTEM = "/usr/sbin:/usr/bin:/sbin:/bin"
OTHER_SOURCES = "dist/'s program was built from other sources"
README_LINES = re.compile(r"```sh\nbin/preview plan samples/clock.264\n```.*?```text\n(.*?)```", re.DOTALL)
PASSED = "7 passed, 0 failed"
RT = """case $1 in
  ci) echo "$SAID"; case $SAID in *' 0 failed') ;; *) exit 1 ;; esac ;;
  *) exec {rt} "$@" ;;
esac"""


class Ran(NamedTuple):
    status: int
    output: str
    errors: str
    seconds: float = 0.0

    def same(self):
        """All but the time."""
        return self[:3]


class Checker:
    """Runs commands in a clone, and counts what isn't as expected."""

    def __init__(self, room, root):
        self.root, self.clone, self.path = root, room / "clone", SYSTEM
        subprocess.run(["git", "clone", "-q", TOP, self.clone], check=True)
        self.commands, self.failures = room / "commands", 0
        self.runs = 0
        if not root:
            self.commands.mkdir()
            for name in COMMANDS:
                (self.commands / name).symlink_to(shutil.which(name))
            self.path = str(self.commands)

    def inside(self, path):
        """A path as the command sees it."""
        return "/" + str(path.relative_to(self.root)) if self.root else str(path)

    def run(self, *words, text=None, path=None, user=0, at=None, command="bin/preview", **more):
        """Runs a file of the clone, by default bin/preview, from the clone's top."""
        line = [self.inside(self.clone / command), *words]
        how = {"cwd": at or self.clone, "env": {"PATH": path or self.path, **more}}
        if self.root:
            users = [f"--userspec={user}:{user}"] if user else []
            line = ["chroot", *users, self.root, "sh", "-c", 'cd "$0" && exec "$@"', self.inside(at or self.clone), *line]
        elif user:
            how |= {"user": user, "group": user, "extra_groups": []}
        begin = time.monotonic()
        ran = processes.run(line, text or b"", **how)
        seconds = time.monotonic() - begin
        return Ran(ran.status, ran.output.decode(), ran.errors.decode(), seconds)

    def expect(self, what, holds, ran):
        """Counts a run, and prints it where it isn't as expected."""
        self.runs += 1
        if not holds:
            self.failures += 1
            print(f"{what}: status {ran.status}, {ran.output[-300:]!r}, {ran.errors[-300:]!r}", flush=True)

    def serves(self, what, **how):
        """Expects README.md's lines, from dist's program."""
        ran = self.run("plan", "samples/clock.264", **how)
        self.expect(what, self.is_planned(ran), ran)
        return ran.seconds

    def is_planned(self, ran):
        """Whether a run printed README.md's lines."""
        begins = README_LINES.search((self.clone / "README.md").read_text())[1]
        return ran.status == 0 and ran.output.startswith(begins) and not ran.errors

    def refuses(self, what, why, **how):
        """Expects that dist's program isn't run for this reason, and that nothing else is without the toolchain."""
        ran = self.run("plan", "samples/clock.264", **how)
        told = why in ran.errors and "toolchain" in ran.errors and "README.md" in ran.errors
        self.expect(what, ran.status == 1 and not ran.output and told and ran.errors.count("\n") == 1, ran)

    def file(self, pattern):
        """The first file of the clone by this pattern."""
        return min(self.clone.glob(pattern))


@contextlib.contextmanager
def changed(path):
    """Another byte in the middle of a file, which keeps its size and its age. It's none of 0, with which programs are padded."""
    text, times = path.read_bytes(), path.stat()
    place = next(place for place in range(len(text) // 2, len(text)) if text[place])
    path.write_bytes(text[:place] + bytes([text[place] ^ 1]) + text[place + 1 :])
    os.utime(path, ns=(times.st_atime_ns, times.st_mtime_ns))
    yield
    path.write_bytes(text)
    os.utime(path, ns=(times.st_atime_ns, times.st_mtime_ns))


def put_command(path, lines):
    """Puts a command there, of lines of a shell."""
    path.write_text(f"#!/bin/sh\n{lines}\n")
    path.chmod(0o755)


@contextlib.contextmanager
def command(path, line):
    """Another command, a line of a shell."""
    put_command(path, line)
    yield
    path.unlink()


def check_first_run(it):
    first = it.serves("the first run of a clone")
    time.sleep(SECONDS + 0.5)
    again = [it.serves("a later run") for _ in range(4)]
    link = it.clone / "samples/link"
    link.symlink_to("../bin/preview")
    it.serves("a run by a symbolic link", command="samples/link")
    link.unlink()
    print(f"the first run took {first:.3f} s, later ones {min(again):.3f} s", flush=True)
    if first > SECONDS:
        it.failures += 1
        print(f"the first run took {first:.1f} s, more than {SECONDS}")
    kept = it.clone / "crates/preview/out/sources.kept"
    if not kept.exists():
        it.failures += 1
        print("no checksum was kept")


def check_passing(it):
    """What goes through bin/preview comes and goes as it does with the program itself."""
    clock = (it.clone / "samples/clock.264").read_bytes()
    shutil.copy(it.clone / "samples/clock.264", it.clone / "samples/a b  *.264")
    for words, text in (([], b""), (["--help"], b""), (["--version"], b""), (["plan", ""], b""), (["plan", "-"], clock),
                        (["plan", "samples/a b  *.264"], b""), (["plan", "a", "b"], b""), (["--", "\\n$HOME"], b""),
                        (["run", "samples/edits.script"], b""), (["run", "-"], b"load -\n"), (["plan", "missing"], b"")):
        ran, alone = it.run(*words, text=text), it.run(*words, text=text, command=PROGRAM)
        it.expect(f"preview {words}", ran.same() == alone.same(), ran)
    ran, alone = (it.run("plan", "clock.264", at=it.clone / "samples", command=name) for name in ("bin/preview", PROGRAM))
    it.expect("preview in another folder", ran.status == 0 and ran.same() == alone.same(), ran)


def check_sources(it):
    """Each change of a source shows, also one of a file whose size and age stay, where the checksum was kept."""
    kept = [it.clone / "crates.txt", it.clone / "HANDLES"]
    for pattern in ("src/**/*.rt", "specs/**/*.antt", "proofs/**/*.antt"):
        kept.append(it.file(f"crates/stand_in_session/{pattern}"))
    for path in kept:
        time.sleep(SECONDS + 0.5)
        it.serves("before a change")
        with changed(path):
            it.refuses(f"a byte of {path.name}", OTHER_SOURCES)
    more = it.clone / "crates/annexb/src/more.rt"
    shutil.copy2(it.file("crates/annexb/src/*.rt"), more)
    it.refuses("a source more", OTHER_SOURCES)
    more.unlink()
    less = it.file("crates/annexb/src/*.rt")
    less.rename(it.clone / "less")
    it.refuses("a source less", OTHER_SOURCES)
    (it.clone / "less").rename(less)
    with changed(it.file("crates/annexb/must-fail/*.edit")), changed(it.clone / "crates/preview/stdout"):
        it.serves("files changed that no build reads")


def check_refusals(it):
    with changed(it.clone / PROGRAM):
        it.refuses("a byte of the program", "isn't the one that dist/MANIFEST names")
    (it.clone / PROGRAM).chmod(0o644)
    it.refuses("a program that may not be run", "doesn't run on this machine")
    (it.clone / PROGRAM).chmod(0o755)
    it.refuses("CUPDAISY_BUILD=1", "CUPDAISY_BUILD is 1", CUPDAISY_BUILD="1")
    other = it.clone / "crates/preview/out/commands"
    other.mkdir()
    with command(other / "uname", "echo Linux aarch64"):
        it.refuses("another processor", "no program for Linux aarch64", path=f"{it.inside(other)}:{it.path}")
    with command(other / "cat", "echo 'flags : fpu cx16 lahf_lm pni sse4_1 sse4_2 avx ssse3x'"):
        ran = it.run("plan", "samples/clock.264", path=f"{it.inside(other)}:{it.path}")
        told = "x86-64-v2" in ran.errors and ran.errors.endswith(" lacks popcnt ssse3\n")
        it.expect("an old processor", ran.status == 1 and not ran.output and told, ran)
    (it.clone / "dist").rename(it.clone / "gone")
    it.refuses("no dist", "has no program")
    (it.clone / "gone").rename(it.clone / "dist")


def check_unwritable(it):
    """A checkout of another user, of whom nothing may be written."""
    out = it.clone / "crates/preview/out"
    shutil.rmtree(out)
    if os.geteuid() == 0:
        it.serves("a checkout that can't be written", user=NOBODY)
        if out.exists():
            it.failures += 1
            print("a checkout that can't be written was written")


def check_arm(it):
    """The library for ARM boards in a clone without the toolchain: what a compiler for these makes prints README.md's lines under
    the emulator; then one for this machine makes all anew."""
    def make(compiler, *words):
        ran = it.run("--silent", f"CC={compiler}", *words, command=shutil.which("make"), path=SYSTEM)
        it.expect(f"make CC={compiler} {words}", ran.status == 0, ran)
        return ran

    make(CROSS_COMPILER, "examples")
    ran = it.run("-L", "/usr/aarch64-linux-gnu", "build/plan_lines", "samples/clock.264", command=shutil.which(EMULATOR))
    it.expect("README.md's lines under the emulator", it.is_planned(ran), ran)
    ran = make(CROSS_COMPILER, "install", "DESTDIR=build/board")
    board = it.clone / "build/board/usr/local"
    is_whole = (board / "lib/libcupdaisy.a").exists() and not (board / "bin/preview").exists()
    it.expect("what is installed for a board", is_whole, ran)
    make("gcc", "build/plan_lines")
    it.expect("README.md's lines by this machine", it.is_planned(it.run("samples/clock.264", command="build/plan_lines")), ran)


def put_where_built(it):
    """Puts each file of dist/ where it would have been built; the paths."""
    places = [it.clone / file.built for file in wanted_files()]
    for file, built in zip(wanted_files(), places):
        built.parent.mkdir(parents=True, exist_ok=True)
        shutil.copy(it.clone / "dist" / file.path, built)
    return places


def check_make(it, built):
    """`tools/dist --make` makes of dist's files what is there, and nothing of one that isn't built of what git knows."""
    def expect(what, holds, words):
        ran = it.run("--make", command="tools/dist", path=os.environ["PATH"])
        same = not processes.printed(["git", "status", "--porcelain", "dist"], cwd=it.clone)
        it.expect(what, same and (ran.status == 0) == holds and words in ran.output, ran)

    for path in (PROGRAM, FOR_ARM):
        expect("dist made anew", True, f"wrote {path}")
    more = it.clone / "crates/annexb/src/more"
    more.touch()
    expect("dist made of a source that git doesn't know", False, "git doesn't know crates/annexb/src/more")
    more.unlink()
    os.utime(built[0], (0, 0))
    expect("dist made of an old program", False, "is older than")


def check_gate(it, rt, built):
    """.ci/run, with an rt whose `ci` only says that it passed, and with dist's files as what it built."""
    commands = built[0].parent / "commands"
    commands.mkdir()
    put_command(commands / "rt", RT.format(rt=rt))

    def gate(what, last, *words, said=PASSED):
        for path in built:
            path.touch()
        ran = it.run(command=".ci/run", path=f"{commands}:{os.environ['PATH']}", SAID=said)
        named = all(word in ran.output for word in words)
        passes = (ran.status == 0) == last.endswith(" 0 failed")
        it.expect(f"the gate with {what}", passes and named and f"\n{ran.output}".endswith(f"\n{last}\n"), ran)

    gate("all as it is", PASSED, "each file is what was built")
    put_command(commands / "make", "exit 0")    # so the tests of the C interface are run once
    gate("a failure of rt ci", "6 passed, 1 failed", said="6 passed, 1 failed")
    for path, named in ((it.clone / PROGRAM, PROGRAM), (built[0], PROGRAM), (it.clone / FOR_ARM, FOR_ARM), (built[-1], FOR_ARM)):
        with changed(path):
            gate(f"a byte of {path} changed", "7 passed, 1 failed", f"{named} differs")
    with changed(it.file("crates/stand_in_session/src/*.rt")):
        gate("other sources", PASSED, "other sources")
    manifest = it.clone / "dist/MANIFEST"
    text = manifest.read_text()
    manifest.write_text(re.sub("(?m)^toolchain .*", "toolchain another", text))
    gate("another toolchain", PASSED, "another toolchain, another")
    manifest.write_text(re.sub("(?m)^file .", "file x", text))
    gate("another checksum", "7 passed, 1 failed", f"{PROGRAM} has another checksum", f"{FOR_ARM} has another checksum")
    manifest.write_text(text)
    (it.clone / "dist/x86_64-linux/more").touch()
    gate("a file more", "7 passed, 1 failed", "dist/x86_64-linux/more")


def main(doc):
    parser = parser_of(doc)
    parser.add_argument("--root", metavar="FOLDER", type=lambda text: pathlib.Path(text).resolve())
    root = parser.parse_args().root
    with tempfile.TemporaryDirectory(prefix="check-dist-", dir=root and root / "tmp") as room:
        os.chmod(room, 0o755)
        it = Checker(pathlib.Path(room), root)
        for check in (check_first_run, check_passing, check_sources, check_refusals, check_unwritable):
            check(it)
        if are_installed("make", CROSS_COMPILER, EMULATOR) and not root:
            check_arm(it)
        else:
            print("the library for ARM boards wasn't tried: that takes a compiler for these, qemu-user, and no --root")
        rt = shutil.which("rt")
        if rt and not root:
            built = put_where_built(it)
            check_make(it, built)
            check_gate(it, rt, built)
        else:
            print("tools/dist and the gate weren't tried: that takes the toolchain, and no --root")
    print(f"{it.runs} runs, {it.failures} failures")
    return 1 if it.failures else 0

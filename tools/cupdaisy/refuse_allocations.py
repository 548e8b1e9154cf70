"""Runs tests with growths of memory refused."""
import pathlib
import re
import struct
import subprocess
import tempfile
from typing import NamedTuple

from cupdaisy import workspace
from cupdaisy.command_line import parser_of
from cupdaisy.processes import printed_anyway, printed_with_errors, run

SECONDS = 60
NAMED = re.compile(r"^\s*fn ((?:refused|starved)_\w+)\(rt: HostRuntime\)", re.MULTILINE)
SHIM = r"""
#define _GNU_SOURCE
#include <dlfcn.h>
#include <errno.h>
#include <fcntl.h>
#include <stdlib.h>
#include <sys/mman.h>

/* How many growths were asked for, and how many of them were refused. */
static long *counts, number, all_after;

__attribute__((constructor)) static void begin(void) {
    int file = open(getenv("REFUSE_COUNTS"), O_RDWR);
    number = atol(getenv("REFUSE_NUMBER"));
    all_after = atol(getenv("REFUSE_ALL_AFTER"));
    counts = mmap(0, 2 * sizeof *counts, PROT_READ | PROT_WRITE, MAP_SHARED, file, 0);
}

static int refuses(void) {
    long asked = counts ? __atomic_add_fetch(&counts[0], 1, __ATOMIC_SEQ_CST) : 0;
    if (!asked || asked < number || (asked > number && !all_after)) return 0;
    __atomic_add_fetch(&counts[1], 1, __ATOMIC_SEQ_CST);
    errno = ENOMEM;
    return 1;
}

void *malloc(size_t size) {
    static void *(*next)(size_t);
    if (!next) next = dlsym(RTLD_NEXT, "malloc");
    return refuses() ? 0 : next(size);
}

void *realloc(void *old, size_t size) {
    static void *(*next)(void *, size_t);
    if (!next) next = dlsym(RTLD_NEXT, "realloc");
    return refuses() ? 0 : next(old, size);
}
"""


class Tally(NamedTuple):
    """Tests that ran, how many growths were refused in them, and what failed."""
    calls: int
    growths: int
    failed: list

    def __add__(self, other):
        return Tally(self.calls + other.calls, self.growths + other.growths, self.failed + other.failed)

    def __str__(self):
        return f"{self.calls} calls, {self.growths} growths refused, {len(self.failed)} failures"


NOTHING = Tally(0, 0, [])


class Refuser:
    """Runs commands of which growths are refused."""

    def __init__(self, folder):
        self.shim, self.counts = folder / "refuse.so", folder / "counts"
        (folder / "refuse.c").write_text(SHIM)
        subprocess.run(["cc", "-O2", "-shared", "-fPIC", "-o", self.shim, folder / "refuse.c"], check=True)

    def run(self, command, number, all_after):
        """Whether the command passed, what it wrote, how many growths it asked for, and how many were refused."""
        self.counts.write_bytes(bytes(16))
        named = {"LD_PRELOAD": self.shim, "REFUSE_COUNTS": self.counts, "REFUSE_NUMBER": str(number),
                 "REFUSE_ALL_AFTER": str(int(all_after))}
        ran = run(command, seconds=SECONDS, env=named, stderr=subprocess.STDOUT)
        wrote = f"no end within {SECONDS} seconds" if ran.status is None else ran.output.decode(errors="replace")
        asked, refused = struct.unpack("=2q", self.counts.read_bytes())
        return ran.status == 0, wrote, asked, refused


def tests_of(crate):
    """The names of the tests of a crate that are run with growths refused, as its sources have them."""
    sources = (workspace.TOP / "crates" / crate / "src").rglob("*.rt")
    return {name for source in sources for name in NAMED.findall(source.read_text())}


def paths_of(program, names):
    """The tests of these names, as the program of a crate's tests lists them."""
    listed = printed_anyway([program, "--list"])
    paths = re.findall(r"^([\w:]+): test$", listed, re.MULTILINE)
    return [path for path in paths if path.split("::")[-1] in names]


def refuse_each(refuser, program, test):
    """Runs a test once for each growth that it asks for."""
    all_after = test.split("::")[-1].startswith("starved_")
    which = "from it on" if all_after else "alone"
    number, growths, failed = 0, 0, []
    while True:
        number += 1
        passed, wrote, asked, refused = refuser.run([program, test], number, all_after)
        growths += refused
        if not passed:
            failed.append(f"{test} with growth {number} refused, {which}: {wrote.strip()}")
        if asked < number:
            return Tally(1, growths, failed), number - 1


def checked(folder, numbers):
    """Refuses the allocations of these numbers by rt try; what failed of the tests named refused_..."""
    for number in numbers:
        _, told = printed_with_errors(["rt", "try", "--test", "--fail-alloc", str(number)], cwd=folder)
        lines = re.findall(r"^test (?:\w+::)*refused_\w+ \.\.\. (?!ok).*", told, re.MULTILINE)
        if lines or "test result:" not in told:
            yield f"rt try with allocation {number} refused: {'; '.join(lines) or told}"


def check(refuser, crate, by_try):
    """Runs the tests of a crate, and prints what failed and a line for the crate."""
    folder = workspace.TOP / "crates" / crate
    status, told = printed_with_errors(["rt", "test"], cwd=folder)
    program, names = folder / "out" / f"{crate}_tests", tests_of(crate)
    tests = paths_of(program, names) if status == 0 and program.exists() else []
    tally, most = NOTHING, 0
    for test in tests:
        more, growths = refuse_each(refuser, program, test)
        tally, most = tally + more, max(most, growths)
    if len(tests) < len(names):
        tally += Tally(0, 0, [f"{len(names) - len(tests)} tests didn't run\n{told}"])
    if by_try:
        tally += Tally(0, 0, list(checked(folder, range(1, most + 1))))
    for text in tally.failed[:10]:
        print(f"{crate}: {text}")
    print(f"{crate}: {tally}", flush=True)
    return tally


def main(doc):
    parser = parser_of(doc)
    parser.add_argument("--checked", action="store_true")
    parser.add_argument("crates", metavar="CRATE", nargs="*")
    options = parser.parse_args()
    crates = options.crates or [crate for crate in workspace.crates() if tests_of(crate)]
    with tempfile.TemporaryDirectory() as folder:
        refuser = Refuser(pathlib.Path(folder))
        total = sum((check(refuser, crate, options.checked) for crate in crates), NOTHING)
    print(f"all {len(crates)} crates: {total}")
    return 1 if total.failed else 0

"""Says what the gate's time goes to, crate by crate."""
import functools
import os
import pathlib
import re
import subprocess
import sys
import tempfile
import threading
import time
from typing import NamedTuple

from cupdaisy import workspace
from cupdaisy.command_line import parser_of
from cupdaisy.processes import begun

INTERVAL = 0.5
TICKS = os.sysconf("SC_CLK_TCK")
KINDS = ("proof", "tests", "edits")
ENDED = re.compile(r" *[\d.]+ @ (proof|tests|edits) (\w+) ([\d.]+) s, ([\d.]+) s of processors(?: for (\S+))?$")
BASE = "base"
RUN_FILE = re.compile(r"/rt-run-[^/]*/bin/(\w+?)(?:_tests)?$")


class Process(NamedTuple):
    parent: int
    begin: float    # seconds since the machine began
    used: float     # processor seconds, with those of children that have ended


class Check(NamedTuple):
    """A check or a run that ended: whose it was, which edit's, how long it lived, and its processor seconds."""
    kind: str
    crate: str
    edit: str
    seconds: float
    used: float


def processes():
    """The processes that run now, by their numbers."""
    found = {}
    for folder in pathlib.Path("/proc").glob("[0-9]*"):
        try:
            fields = (folder / "stat").read_text().rpartition(")")[2].split()
        except OSError:
            continue
        used = sum(map(int, fields[11:15]))
        found[int(folder.name)] = Process(int(fields[1]), int(fields[19]) / TICKS, used / TICKS)
    return found


def work_of(number):
    """What a process of the gate does, as a kind, a crate and an edit; nothing where it's no check and no run."""
    try:
        words = pathlib.Path(f"/proc/{number}/cmdline").read_bytes().decode(errors="replace").split("\0")
        folder = pathlib.Path(os.readlink(f"/proc/{number}/cwd"))
    except OSError:
        return None
    if os.path.basename(words[0]) == "rattle" and "--crate-name" in words:
        crate = words[words.index("--crate-name") + 1]
        if folder.name.startswith("rt-edit-"):
            return "edits", crate, edit_in(folder, crate)
        return "tests" if "--test" in words else "proof", crate, ""
    run = next(filter(None, map(RUN_FILE.search, words)), None)
    return ("tests", run[1], "") if run else None


@functools.lru_cache(maxsize=None)
def edits_of(crate):
    """The must-fail edits of a crate: the name of each, the file that it changes, and the text of that file then."""
    found, top = [], workspace.TOP / "crates" / crate
    for edit in sorted(top.glob("must-fail/*.edit")):
        file, text, old = "", "", ""
        for line in edit.read_text().splitlines():
            word, _, rest = line.partition(": ")
            if word == "file":
                file, text = rest, (top / rest).read_text()
            elif word == "old":
                old = rest
            elif word == "new":
                text = text.replace(old, rest)
        found.append((edit.stem, file, text))
    return found


def edit_in(folder, crate):
    """The name of the edit that was made in a copy of a crate, or BASE where none was."""
    for name, file, text in edits_of(crate):
        try:
            if (folder / file).read_text().startswith(text):
                return name
        except OSError:
            return BASE
    return BASE


class Watch:
    """The checks and runs among the children of a process."""

    def __init__(self, top):
        self.top, self.running = top, {}

    def look(self):
        """Looks once; those that have ended since the look before."""
        now, found, children = time.clock_gettime(time.CLOCK_BOOTTIME), processes(), {}
        for number, process in found.items():
            children.setdefault(process.parent, []).append(number)
        seen = {}
        self.gather(self.top, found, children, now, seen)
        ended = [check for key, check in self.running.items() if key not in seen]
        self.running = seen
        return ended

    def gather(self, number, found, children, now, seen):
        """Adds the checks at or below a process to those that are seen."""
        if number not in found:
            return
        begin = found[number].begin
        known = self.running.get((number, begin))
        work = known[:3] if known else work_of(number)
        if work:
            seen[number, begin] = Check(*work, now - begin, used_by(number, found, children))
        else:
            for child in children.get(number, []):
                self.gather(child, found, children, now, seen)


def used_by(number, found, children):
    """The processor seconds of a process and all below it."""
    return found[number].used + sum(used_by(child, found, children) for child in children.get(number, []))


def looked(watch):
    """The checks that have ended, none where a process was gone in the middle of a look: the next one finds them."""
    try:
        return watch.look()
    except (OSError, LookupError, ValueError):
        return []


def watched(command, folder, write):
    """Runs a command and calls `write` with each of its lines and each check that ended; its status."""
    child = begun(command, cwd=folder)
    reader = threading.Thread(target=lambda: [write(line.rstrip("\n")) for line in child.stdout])
    reader.start()
    watch = Watch(child.pid)
    while reader.is_alive():
        for check in looked(watch):
            write(check)
        reader.join(INTERVAL)
    for check in watch.running.values():
        write(check)
    return child.wait()


def run_gate(file, names):
    """Runs the gate, or that of some crates alone, prints its lines and writes the log; its status."""
    begin, writing = time.monotonic(), threading.Lock()
    with open(file, "w") as log:
        def write(said):
            passed = time.monotonic() - begin
            with writing:
                if isinstance(said, Check):
                    said = line_of(said)
                else:
                    print(said, flush=True)
                print(f"{passed:8.1f} {said}", file=log, flush=True)

        return watched(["rt", "ci", *names], workspace.TOP, write)


def run_timed(further):
    """Runs the gate and, where it passed, further commands. Prints the gate's lines and, before the last of them, the table
    of what it took and the commands' lines; the status of all."""
    begin, writing, log, last = time.monotonic(), threading.Lock(), [], []

    def write(said):
        with writing:
            if isinstance(said, Check):
                said = line_of(said)
            else:
                print(*last, sep="\n", end="\n" * len(last), flush=True)
                last[:] = [said]
            log.append(f"{time.monotonic() - begin:8.1f} {said}")

    status = watched(["rt", "ci"], workspace.TOP, write)
    try:
        print_report(*read(log), time.monotonic() - begin)
    except Exception as error:    # what passed has passed, whatever its times are
        print(f"gate-times: there is no table: {error!r}")
    sys.stdout.flush()
    if status == 0 and (failed := failures(further)):
        status, last = 1, [re.sub(r"\d+(?= failed)", str(failed), line) for line in last]
    print(*last, sep="\n", flush=True)
    return status


def failures(commands):
    """Runs commands at the top, one after the other; how many of them fail."""
    how = {"shell": True, "cwd": workspace.TOP, "stdin": subprocess.DEVNULL, "stderr": subprocess.STDOUT}
    return sum(subprocess.run(command, **how).returncode != 0 for command in commands)


def print_report(checks, edits, kept, seconds):
    """Prints what a run of the gate took, where it says that it proved something."""
    if checks:
        report(checks, edits)
    if kept:
        print(f"kept of an earlier run: {', '.join(kept)}")
    print(f"the gate took {seconds:.0f} s on {len(os.sched_getaffinity(0))} processors")


def line_of(check):
    """The line of a log for a check."""
    edit = f" for {check.edit}" if check.edit else ""
    return f"@ {check.kind} {check.crate} {check.seconds:.1f} s, {check.used:.1f} s of processors{edit}"


def read(lines):
    """The checks of a log, for each crate how many edits were tried, and what was kept of an earlier run."""
    checks, edits, kept = [], {}, []
    for line in lines:
        if ended := ENDED.match(line):
            checks.append(Check(ended[1], ended[2], ended[5] or "", float(ended[3]), float(ended[4])))
        if trying := re.search(r"rt: (\w+): trying its must-fail edits \((\d+)\)", line):
            edits[trying[1]] = int(trying[2])
        if found := re.search(r"rt: (\w+) is kept: ", line):
            kept.append(found[1])
        if found := re.search(r"rt: (\w+): (\d+) of its \d+ must-fail edits were tried by an earlier run", line):
            kept.append(f"{found[2]} edits of {found[1]}")
    return checks, edits, kept


def chains(seconds):
    """For each crate the longest chain of proofs that ends with it, as names, the longest such chain last."""
    found = {}

    def chain(name):
        if name not in found:
            longest = max((chain(low) for low in stands_on[name]), key=length, default=[])
            found[name] = longest + [name]
        return found[name]

    def length(names):
        return sum(seconds("proof", name) for name in names)

    stands_on = workspace.crates()
    return sorted(((length(chain(name)), chain(name)) for name in stands_on), key=lambda it: it[0])


def least_time(chain_of, seconds):
    """The least time of the gate, and the crate whose edits or tests end last."""
    stands_on = workspace.crates()

    def end(name):
        before = max((chain_of[low] for low in stands_on[name]), default=0)
        return max(chain_of[name], before + seconds("tests", name)) + seconds("edits", name)

    last = max(stands_on, key=end)
    return end(last), last


def print_table(checks, edits):
    """Prints a line for each crate, and their sum."""
    names = [name for name in workspace.crates() if any(check.crate == name for check in checks)]
    names += sorted({check.crate for check in checks} - set(names))
    print(f"{'':18}{'proof':>20}{'tests':>20}{'must-fail edits':>28}")
    print(f"{'crate':18}" + f"{'s':>9}{'processor':>11}" * 2 + f"{'number':>8}{'s':>9}{'processor':>11}")
    for name in [*names, "all"]:
        mine = [check for check in checks if name in (check.crate, "all")]
        row = ""
        for kind in KINDS:
            if kind == "edits":
                row += f"{edits.get(name, 0) if name != 'all' else sum(edits.values()):8}"
            row += f"{sum(check.seconds for check in mine if check.kind == kind):9.1f}"
            row += f"{sum(check.used for check in mine if check.kind == kind):11.1f}"
        print(f"{name:18}{row}")


def report(checks, edits):
    """Prints the table, the longest chain and the least time."""
    def seconds(kind, name):
        return sum(check.seconds for check in checks if (check.kind, check.crate) == (kind, name))

    print_table(checks, edits)
    ordered = chains(seconds)
    length, names = ordered[-1]
    print(f"longest chain: {length:.1f} s: " + ", ".join(f"{name} {seconds('proof', name):.1f}" for name in names))
    least, last = least_time({chain[-1]: length for length, chain in ordered}, seconds)
    print(f"least time: {least:.1f} s, until {last}'s edits are tried")


def measure(name):
    """Measures one crate, and prints its table and each of its edits; whether all passed."""
    checks, said = [], []

    def write(it):
        (checks if isinstance(it, Check) else said).append(it)

    with tempfile.TemporaryDirectory(prefix="gate-times-") as room:
        workspace.copy_of([name], pathlib.Path(room))
        folder = pathlib.Path(room) / "crates" / name
        top = next(file for file in (folder / "src/main.rt", folder / "src/lib.rt") if file.exists())
        top.write_text(top.read_text() + f"\n// measured at {time.time_ns()}\n")
        status = watched(["rt", "ci", name], room, write)
    mine = [check for check in checks if check.crate == name]
    print_table(mine, {name: len(edits_of(name))})
    for check in mine:
        if check.kind == "edits":
            print(f"{check.seconds:8.1f} s {check.used:8.1f} s of processors  {check.edit}")
    if status != 0:
        print("\n".join(said[-20:]) + f"\nrt ci {name} failed", file=sys.stderr)
    return status == 0


def main(doc):
    parser = parser_of(doc)
    way = parser.add_mutually_exclusive_group()
    way.add_argument("--gate", action="store_true")
    way.add_argument("--run", action="store_true")
    way.add_argument("--crate", metavar="NAME", choices=workspace.crates())
    parser.add_argument("--then", metavar="COMMAND", action="append", default=[])
    parser.add_argument("log", metavar="LOG", nargs="?")
    parser.add_argument("names", metavar="NAME", nargs="*", help="under --run")
    options = parser.parse_args()
    if options.crate:
        return 0 if measure(options.crate) else 1
    if options.gate:
        return run_timed(options.then)
    if options.run:
        if not options.log:
            parser.error("--run needs a LOG")
        return run_gate(options.log, options.names)
    with open(options.log) if options.log else sys.stdin as log:
        checks, edits, kept = read(log)
    if not checks:
        print("no times: rt ci prints none; tools/gate-times --run LOG writes a log that has them", file=sys.stderr)
        return 1
    report(checks, edits)
    if kept:
        print(f"kept of an earlier run: {', '.join(kept)}")
    return 0

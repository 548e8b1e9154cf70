"""Plays streams by examples/v4l2_request on the kernel's virtual decoder in a guest, and compares what the kernel was told."""
import concurrent.futures
import os
import pathlib
import shutil
import tempfile
import time

from cupdaisy import draw_streams, kernel_structs
from cupdaisy.command_line import NOT_INSTALLED, add_numbers, parser_of
from cupdaisy.kernel_guest import CannotBeHad, DidNotEnd, Guest
from cupdaisy.kernel_jobs import HOST, Job, Mode, Stream, job_line
from cupdaisy.kernel_spoils import are_seen
from cupdaisy.workspace import SAMPLES, TOP

PLAIN = "slices"
MODES = {
    PLAIN: Mode(),
    "slices without start codes": Mode("--no-start-code"),
    "pictures": Mode("--frame-based"),
    "pictures without start codes": Mode("--frame-based --no-start-code"),
    "slices, several in flight": Mode("--requests 8", is_slow=True),
    "pictures, several in flight": Mode("--frame-based --requests 8", is_slow=True),
}
# So many streams are played by one guest.
BATCH = 24
TOLD, DRAWN_PICTURES = 4, 20


class Checked:
    """What was compared until now."""

    def __init__(self):
        self.begun = time.monotonic()
        self.streams = self.runs = self.requests = self.members = self.calls = self.in_flight = self.failed = 0
        self.clashes = self.clashing = 0

    def add(self, title, jobs):
        """Counts the runs of a stream, and prints a line."""
        faults = [f"{mode}: {fault}" for mode, job in jobs.items() for fault in job.faults]
        requests, members = sum(job.requests for job in jobs.values()), sum(job.members for job in jobs.values())
        self.streams += 1
        self.runs += len(jobs)
        self.requests += requests
        self.members += members
        self.calls += sum(len(job.calls) for job in jobs.values())
        self.in_flight = max([self.in_flight, *(job.in_flight for job in jobs.values())])
        self.failed += len(faults)
        clashes = jobs[PLAIN].clashes
        self.clashes += clashes
        self.clashing += clashes > 0
        print(f"{title}: {len(jobs)} runs, {requests:,} requests, {members:,} members: "
              + (f"{len(faults)} differences" if faults else "agree"), flush=True)
        for fault in faults[:TOLD]:
            print(f"    {fault}")

    def print(self):
        print(f"{self.streams} streams, {self.runs} runs, {self.requests:,} requests, {self.members:,} members of controls, "
              f"{self.calls:,} calls, at most {self.in_flight} requests in flight, {time.monotonic() - self.begun:.0f} s: "
              f"{self.failed} differences")
        print(f"{self.clashes} requests of {self.clashing} streams name two frames to which cedrus would give one place")


def play(guest, folder, files):
    """Has a guest play streams in each mode."""
    lines = []
    for number, file in enumerate(files):
        shutil.copy(file, folder / f"{number}.264")
        lines += [job_line(f"{number}.{place}", f"{number}.264", mode) for place, mode in enumerate(MODES.values())]
    (folder / "jobs").write_text("\n".join(lines) + "\n")
    guest.boot(folder)


def compare(folder, files, checked):
    """Compares what the guest left of each stream."""
    for number, file in enumerate(files):
        stream = Stream(folder / f"{number}.264")
        checked.add(file.name, {name: Job(folder, f"{number}.{place}", stream, mode).compare()
                                for place, (name, mode) in enumerate(MODES.items())})
    shutil.rmtree(folder)


def play_all(guest, files, checked, guests):
    """Plays all streams, so many guests at a time, and compares as they are done."""
    runs = guest.folder / "runs"
    shutil.rmtree(runs, ignore_errors=True)
    runs.mkdir()
    with concurrent.futures.ThreadPoolExecutor(guests) as pool:
        played = []
        for begin in range(0, len(files), BATCH):
            folder, batch = pathlib.Path(tempfile.mkdtemp(dir=runs)), files[begin:begin + BATCH]
            played.append((pool.submit(play, guest, folder, batch), folder, batch))
        for done, folder, batch in played:
            done.result()
            compare(folder, batch, checked)


def joined(files, file):
    """A file with these one after the other, so that the pictures' size changes."""
    file.write_bytes(b"".join(each.read_bytes() for each in files))
    return file


def files_of(options):
    samples, files = sorted(SAMPLES.glob("*.264")), []
    if not options.no_samples:
        files = [*samples, *sorted((SAMPLES / "damaged").glob("*.264")), joined(samples, options.room / "joined-samples.264")]
    if options.streams:
        files += sorted(options.streams.glob("*.264"))
    if options.drawn:
        files += draw_streams.draw(options.room / "drawn", options.drawn, DRAWN_PICTURES, options.seed)
    return files


def main(doc):
    parser = parser_of(doc)
    parser.add_argument("--streams", type=pathlib.Path, metavar="FOLDER")
    parser.add_argument("--no-samples", action="store_true")
    parser.add_argument("--room", type=pathlib.Path, default=TOP / "build" / "kernel", metavar="FOLDER")
    parser.add_argument("--quick", action="store_true")
    add_numbers(parser, drawn=0, seed=1, guests=1, jobs=2)
    options = parser.parse_args()
    if not os.path.exists(kernel_structs.HEADER):
        print("the kernel's header isn't there (linux-libc-dev): nothing was compared")
        return NOT_INSTALLED
    if not HOST.exists():
        print("build/v4l2_request isn't there: `make examples` builds it")
        return 1
    guest, checked = Guest(options.room, options.jobs), Checked()
    try:
        guest.prepare()
        play_all(guest, files_of(options), checked, options.guests)
        checked.print()
        is_found = options.quick or are_seen(guest, options.seed)
    except CannotBeHad as fault:
        print(f"nothing was compared: {fault}")
        return NOT_INSTALLED
    except DidNotEnd as fault:
        print(fault)
        return 1
    return 1 if checked.failed or not is_found else 0

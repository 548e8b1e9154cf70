"""Runs seats and workers in threads at one desk."""
import time

from cupdaisy.command_line import add_numbers, parser_of
from cupdaisy.processes import Ran, run
from cupdaisy.workspace import TOP

SECONDS = 300
PROGRAM = TOP / "crates" / "desk_soak" / "out" / "desk_soak"


def fault_of(command):
    """What is wrong with a run, if anything."""
    ran = run(command, seconds=SECONDS)
    if ran.status is None:
        return f"no end within {SECONDS} s"
    if ran != Ran(0, b"agreed\n", b""):
        return f"status {ran.status}, {ran.output[:200]!r}, on standard error {ran.errors[:400]!r}"
    return ""


def main(doc):
    parser = parser_of(doc)
    add_numbers(parser, runs=20, seats=8, workers=8, commands=20_000, seed=0)
    parser.add_argument("program", metavar="PROGRAM", nargs="?", default=str(PROGRAM))
    options = parser.parse_args()
    each, failures, start = options.commands // options.seats, 0, time.monotonic()
    for seed in range(options.seed, options.seed + options.runs):
        words = [options.program, *map(str, (options.seats, options.workers, each, seed))]
        if found := fault_of(words):
            failures += 1
            print(f"seed {seed}: {found}", flush=True)
    print(f"{options.runs} runs of {each * options.seats} commands by {options.seats} seats beside {options.workers} workers "
          f"in {time.monotonic() - start:.0f} s, {failures} failures")
    return 1 if failures else 0

"""Explores the model of who waits at a desk by Spin, and sees planted errors found."""
import re
import resource
import subprocess
import sys
import tempfile

from cupdaisy.command_line import NOT_INSTALLED, are_installed
from cupdaisy.processes import printed_with_errors
from cupdaisy.workspace import TOP

MODEL = TOP / "tools" / "models" / "desk.pml"
MEGABYTES, HASHED, DEPTH = 5000, 25, 5_000_000
# What is explored, by its name: what the model is told.
WHOLE = {
    "one job at a time": "",
    "each picture refers to the one before it": "-DCHAIN",
    "two jobs at a time": "-DJOBS=2",
    "one job, a desk that counts who sleeps": "-DCOUNTED",
    "two jobs, a desk that counts who sleeps, no wait ends by itself": "-DCOUNTED -DJOBS=2 -DCHANCES=0",
    "what is wanted first": "-DCOUNTED -DWANTED",
}
CLAIMED = {
    "settle and close end, one job at a time": "-DCLAIM -DCHANCES=0",
    "settle and close end, two jobs at a time": "-DCLAIM -DCHANCES=0 -DJOBS=2",
    "settle and close end, a desk that counts who sleeps": "-DCLAIM -DCHANCES=0 -DCOUNTED",
}
# The planted errors by their numbers, each with what Spin has to find.
WORKERS, CLOSING, SEATS = "a worker sleeps though a picture is due", "a worker sleeps at a closed desk", "a seat sleeps"
PLANTED = {
    1: ("an edit wakes no worker", "", WORKERS),
    2: ("an edit wakes no seat", "", SEATS),
    3: ("a worker that takes a job wakes no other", "", WORKERS),
    4: ("a worker that finds none due wakes no seat", "", SEATS),
    5: ("a worker that ends wakes no other", "", WORKERS),
    6: ("a worker that ends wakes no seat", "", SEATS),
    7: ("who closes the desk wakes nobody", "", CLOSING),
    8: ("a seat looks before it has the lock", "", SEATS),
    9: ("a worker looks before it has the lock", "", CLOSING),
    10: ("a worker that ends is counted after it woke the seats", "", SEATS),
    11: ("a worker may take two jobs while another sleeps, whom it leaves asleep where it is refused the second",
         "-DCOUNTED -DJOBS=2", WORKERS),
    12: ("a worker that brings a result wakes no seat that waits for one picture", "-DCOUNTED -DWANTED -DCHANCES=0", SEATS),
    13: ("a seat that begins to wait for a picture wakes no worker", "-DCOUNTED -DWANTED -DCHANCES=0", WORKERS),
    14: ("who changes what is wanted wakes nobody", "-DCOUNTED -DWANTED -DCHANCES=0", SEATS),
}
CLAIMS_PLANTED = (1, 4, 7)
# What stands in the assertion of each alone, of those that are left.
FOUND = {"pending&~": WORKERS, "closed": CLOSING, "ended_workers<3": SEATS}


def explored(told, is_claim, folder):
    """Explores the model as it is told: Spin's report, and the processor's seconds."""
    kind = ["-DNFAIR=3"] if is_claim else ["-DSAFETY"]
    subprocess.run(["spin", "-a", *told.split(), MODEL], cwd=folder, check=True, stdout=subprocess.DEVNULL)
    subprocess.run(["gcc", "-w", "-O2", "-DNOREDUCE", f"-DMEMLIM={MEGABYTES}", *kind, "-o", "pan", "pan.c"],
                   cwd=folder, check=True)
    before = resource.getrusage(resource.RUSAGE_CHILDREN).ru_utime
    _, told = printed_with_errors(["./pan", f"-w{HASHED}", f"-m{DEPTH}", *(["-a", "-f"] if is_claim else [])], cwd=folder)
    return told, resource.getrusage(resource.RUSAGE_CHILDREN).ru_utime - before


def found_in(report):
    """What Spin found, in words; nothing where it explored all and found no error, and what is odd about a report else."""
    fault = re.search(r"pan:1: (.*)", report)
    if fault:
        text = fault[1].replace(" ", "")
        if "invalidendstate" in text:
            return "no thread can go on"
        if "acceptancecycle" in text:
            return "a wait doesn't end"
        return next((name for part, name in FOUND.items() if part in text), text)
    is_whole = "errors: 0" in report and not re.search(r"max search depth|out of memory|memory limit|interrupted", report)
    return "" if is_whole else "it isn't explored whole: " + report[-400:]


def figures(report, seconds):
    states = re.search(r"(\d\S*) states, stored", report)
    memory = re.search(r"(\d\S*)\s+total actual memory", report)
    return f"{int(float(states[1])):,} states, {float(memory[1]):.0f} MB, {seconds:.0f} s" if states and memory else ""


def check(name, told, wanted, is_claim, folder):
    """Explores the model and prints a line; whether what was found is what is wanted."""
    report, seconds = explored(told, is_claim, folder)
    found = found_in(report)
    print(f"{'ok' if found == wanted else 'NOT OK'}: {name}: {found or 'no error'}; {figures(report, seconds)}", flush=True)
    return found == wanted


def main(doc):
    is_quick = sys.argv[1:] == ["--quick"]
    if sys.argv[1:] and not is_quick:
        sys.exit(doc)
    if not are_installed("spin", "gcc"):
        print("spin or gcc is not installed")
        return NOT_INSTALLED
    with tempfile.TemporaryDirectory() as folder:
        held = []
        for number, (name, told, wanted) in PLANTED.items():
            held.append(check(f"planted, {name}", f"-DLOST_WAKEUP={number} {told}", wanted, False, folder))
        for number in () if is_quick else CLAIMS_PLANTED:
            told = f"-DLOST_WAKEUP={number} -DCLAIM -DCHANCES=0"
            held.append(check(f"planted, {PLANTED[number][0]}", told, "a wait doesn't end", True, folder))
        for name, told in list(WHOLE.items())[:1 if is_quick else None]:
            held.append(check(name, told, "", False, folder))
        for name, told in {} if is_quick else CLAIMED.items():
            held.append(check(name, told, "", True, folder))
    print(f"{sum(held)} of {len(held)} as they have to be")
    return 0 if all(held) else 1

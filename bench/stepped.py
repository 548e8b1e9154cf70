"""Scripts of `preview run` whose steps are timed one by one."""
import os
import subprocess
import sys
import time

import measure
from cupdaisy.processes import waited


def opened(gate, child):
    """The pipe, once the child waits for what it holds."""
    while child.poll() is None:
        try:
            return os.open(gate, os.O_WRONLY | os.O_NONBLOCK)
        except OSError:
            time.sleep(0.001)
    sys.exit(f"the run ended with status {child.returncode}")


def used(child):
    """Seconds of a processor that a process has taken, in all its threads."""
    return time.clock_gettime(~child.pid << 3 | 2)    # Linux's number of the process's clock


def ran(steps, folder):
    """Runs a script of these steps: the seconds of a processor that it takes up to the end of each, and its peak bytes."""
    gates, script, marks = [folder / f"gate{number}" for number in range(len(steps))], folder / "script", []
    script.write_text("".join(f"{step}load {gate}\n" for step, gate in zip(steps, gates)))
    for gate in gates:
        os.mkfifo(gate)
    with open(folder / "output", "wb") as output:
        child = subprocess.Popen([measure.program(), "run", str(script)], stdout=output)
    for gate in gates:
        pipe = opened(gate, child)
        marks.append(used(child))
        os.close(pipe)
        gate.unlink()
    status, usage = waited(child)
    if status != 0:
        sys.exit(f"the run ended with status {status}")
    return marks, usage.ru_maxrss * 1024


def used_by(command, folder):
    """The least seconds of a processor that a command takes, of some runs."""
    seconds = []
    for _ in range(measure.REPEATS):
        with open(folder / "beside", "wb") as output:
            status, usage = waited(subprocess.Popen(command, stdin=subprocess.DEVNULL, stdout=output))
        if status != 0:
            sys.exit(f"{command[0]} ended with status {status}")
        seconds.append(usage.ru_utime + usage.ru_stime)
    return min(seconds)

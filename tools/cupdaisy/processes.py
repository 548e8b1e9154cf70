"""Commands that are run: how they end, what they print, and what they take."""
import os
import subprocess
from typing import NamedTuple, Optional


class Ran(NamedTuple):
    """How a run ended, with no status where it didn't in time, and what it wrote."""
    status: Optional[int]
    output: bytes
    errors: bytes


def run(command, text=None, seconds=None, **how):
    """Runs a command with a text as its standard input, none by default, for so many seconds at most."""
    how = {"stdin": subprocess.DEVNULL, "stdout": subprocess.PIPE, "stderr": subprocess.PIPE, **how}
    if text is not None:
        del how["stdin"]
    try:
        ran = subprocess.run(command, input=text, timeout=seconds, **how)
    except subprocess.TimeoutExpired:
        return Ran(None, b"", b"")
    return Ran(ran.returncode, ran.stdout or b"", ran.stderr or b"")


def printed(command, **how):
    """What a command prints, which has to end with status 0."""
    return subprocess.run(command, stdout=subprocess.PIPE, text=True, check=True, **how).stdout


def printed_anyway(command, **how):
    """What a command prints, whatever its status."""
    return subprocess.run(command, stdout=subprocess.PIPE, text=True, check=False, **how).stdout


def printed_with_errors(command, **how):
    """The status of a command, and what it writes to either stream."""
    how = {"stdin": subprocess.DEVNULL, "stdout": subprocess.PIPE, "stderr": subprocess.STDOUT, "text": True,
           "errors": "replace", **how}
    ran = subprocess.run(command, check=False, **how)
    return ran.returncode, ran.stdout


def begun(command, **how):
    """Begins a command, whose lines on either stream are read while it runs."""
    return subprocess.Popen(command, stdin=subprocess.DEVNULL, stdout=subprocess.PIPE, stderr=subprocess.STDOUT, text=True,
                            errors="replace", **how)


def piped(source, command):
    """Runs a command on what another prints: whether both end with status 0, and what the command says on standard error."""
    before = subprocess.Popen(source, stdout=subprocess.PIPE)
    ran = run(command, stdin=before.stdout, stdout=subprocess.DEVNULL)
    before.stdout.close()
    return before.wait() == 0 and ran.status == 0, ran.errors.decode(errors="replace")


def waited(child):
    """Waits for a child: its status, and what it used of the machine."""
    _, status, usage = os.wait4(child.pid, 0)
    child.returncode = os.waitstatus_to_exitcode(status)
    return child.returncode, usage

"""The program `preview` that the tools run."""
import functools
import os

from cupdaisy import processes
from cupdaisy.workspace import TOP

# What runs it: the program that PREVIEW names, or bin/preview, which finds or builds one.
PREVIEW = os.environ.get("PREVIEW") or str(TOP / "bin" / "preview")


@functools.cache
def program():
    """The program that PREVIEW names; without it the one that bin/preview runs, without that script."""
    return processes.printed([TOP / "tools" / "program"]).rstrip("\n")

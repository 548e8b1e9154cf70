"""Tries the edits that the prover must refuse and the gate leaves out."""
import pathlib
import re
import shutil
import sys
import tempfile
from collections import deque

from cupdaisy import workspace
from cupdaisy.command_line import parser_of
from cupdaisy.processes import begun

VERDICT = re.compile(r"must-fail \w+/[\w.-]+\.edit: (refused, as it must be|NOT REFUSED|BAD EDIT|NOT TRIED)")


def edits_of(name):
    """The edits of a crate that the gate leaves out."""
    return sorted((workspace.TOP / "crates" / name / "more-edits").glob("*.edit"))


def verdicts(names):
    """Tries the edits of crates, prints each verdict, and gives the verdicts and the last lines of what was said."""
    found, said = [], deque(maxlen=20)
    with tempfile.TemporaryDirectory(prefix="more-edits-") as room:
        workspace.copy_of(names, pathlib.Path(room))
        for name in names:
            folder = pathlib.Path(room) / "crates" / name
            shutil.rmtree(folder / "must-fail", ignore_errors=True)
            (folder / "more-edits").rename(folder / "must-fail")
        with begun(["rt", "ci", *names], cwd=room) as run:
            for line in run.stdout:
                said.append(line)
                verdict = VERDICT.search(line)
                if verdict:
                    print(line[verdict.start():], end="", flush=True)
                    found.append(verdict[1])
    return found, said


def main(doc):
    with_some = [name for name in workspace.crates() if edits_of(name)]
    parser = parser_of(doc)
    parser.add_argument("names", metavar="NAME", nargs="*")
    names = list(dict.fromkeys(parser.parse_args().names)) or with_some
    for name in names:
        if name not in with_some:
            parser.error(f"{name} is no crate with a folder more-edits")
    count = sum(len(edits_of(name)) for name in names)
    found, said = verdicts(names)
    if len(found) != count:
        print(f"edits couldn't be tried; the run ended so:\n{''.join(said)}", end="", file=sys.stderr)
    refused = sum(verdict.startswith("refused") for verdict in found)
    print(f"{refused} refused, {count - refused} not")
    return 0 if refused == count else 1

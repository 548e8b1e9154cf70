"""The command lines of the tools."""
import argparse
import shlex
import shutil

from cupdaisy.program import PREVIEW

# The status of a tool for which a program isn't installed.
NOT_INSTALLED = 77


def parser_of(doc):
    """A parser of options, whose help is the head of a command."""
    return argparse.ArgumentParser(description=doc, formatter_class=argparse.RawTextHelpFormatter)


def add_numbers(parser, **usual):
    """Adds an option for each of these numbers, with what it is where it isn't given."""
    for name, number in usual.items():
        parser.add_argument(f"--{name}", type=int, default=number, metavar="N")


def keep(folder, name, text):
    """Keeps a text in a folder, if one is given."""
    if folder:
        folder.mkdir(parents=True, exist_ok=True)
        (folder / name).write_bytes(text)


def are_installed(*programs):
    return all(map(shutil.which, programs))


def planner_of(doc):
    """The options of a command that compares what a planner prints of files."""
    parser = parser_of(doc)
    parser.add_argument("--planner", metavar="COMMAND", type=shlex.split,
                        default=[PREVIEW, "plan"], help=argparse.SUPPRESS)
    parser.add_argument("files", metavar="FILE", nargs="+")
    return parser.parse_args()

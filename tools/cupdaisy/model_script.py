"""Prints what a script's run has to print, by a plain model."""
import pathlib
import sys

from cupdaisy import scripts
from cupdaisy.command_line import parser_of
from cupdaisy.session import Open


def main(doc):
    parser = parser_of(doc)
    parser.add_argument("--hex", action="store_true")
    parser.add_argument("--cache", type=int, default=64, metavar="N")
    parser.add_argument("script", metavar="SCRIPT")
    options = parser.parse_args()
    text = sys.stdin.buffer.read() if options.script == "-" else pathlib.Path(options.script).read_bytes()
    try:
        ran = scripts.run(text, options.cache, options.hex)
    except Open as fault:
        print(f"given up: {fault}", file=sys.stderr)
        return 3
    sys.stdout.write(ran.lines)
    sys.stdout.flush()
    sys.stderr.write(ran.message)
    return ran.status
